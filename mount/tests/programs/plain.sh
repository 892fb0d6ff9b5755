#!/bin/sh
# plain.sh runc|crun [--rootless]: the life of a container whose bundle is what `spec` writes, unedited: a shell on a terminal, a
# file system that is read only, no resources. Under `makhloeum run`.
here=$(dirname "$(readlink -f "$0")")
rt=$1
w=$(mktemp -d) || exit 1
. "$here/steps.sh"
mkdir -p "$w/b/rootfs/bin" "$w/root"
cp "$(command -v busybox)" "$w/b/rootfs/bin/busybox"
for x in sh sleep cat ls true touch; do ln -s busybox "$w/b/rootfs/bin/$x"; done
cd "$w/b" || exit 1
# shellcheck disable=SC2086
"$rt" spec ${2:-}
R="$rt --root $w/root"
[ "$rt" = crun ] && R="$R --cgroup-manager=cgroupfs"

printf 'cat /proc/self/cgroup; exit 7\n' > "$w/keys"
refused "run on a terminal: its status" "0::/" sh -c "script -qec '$R run c0' /dev/null < $w/keys"
mkfifo "$w/in"
python3 "$here/console.py" "$w/s" "$w/in" "$w/shown" 2> "$w/console" &
soon "a terminal waits" test -S "$w/s"
step "create" $R create --console-socket "$w/s" c1
step "start" $R start c1
p=$(sed -n 's/.*"init_process_pid":\([0-9]*\).*/\1/p' "$w/root/c1/state.json" 2>/dev/null)
[ -n "$p" ] || p=$(sed -n 's/.*"pid" *: *\([0-9]*\).*/\1/p' "$w/root/c1/status")
g=/sys/fs/cgroup$(sed s/0::// /proc/$p/cgroup)
step "its own group" test "$g" != /sys/fs/cgroup/
says "one process there" "$p" cat "$g/cgroup.procs"
step "type to the shell" sh -c "echo 'cat /proc/self/cgroup && touch /x; sleep 3600 & sleep 3600 &' > $w/in"
soon "three processes" grep -qx 3 "$g/pids.current"
soon "it shows its namespace's root" grep -q 0::/ "$w/shown"
soon "its root is read only" grep -q "Read-only file system" "$w/shown"
step "state: running" sh -c "$R state c1 | grep -q '\"running\"'"
step "ps" sh -c "$R ps c1 | grep -qw $p"
step "exec" $R exec c1 /bin/true
step "update --pids-limit 9" $R update --pids-limit 9 c1
says "pids.max" 9 cat "$g/pids.max"
step "pause" $R pause c1
soon "frozen 1" grep -qx "frozen 1" "$g/cgroup.events"
step "state: paused" sh -c "$R state c1 | grep -q '\"paused\"'"
step "resume" $R resume c1
soon "frozen 0" grep -qx "frozen 0" "$g/cgroup.events"
step "kill KILL" $R kill c1 KILL
soon "state: stopped" sh -c "$R state c1 | grep -q '\"stopped\"'"
step "delete" $R delete c1
step "the group is gone" test ! -e "$g"
wait
chmod -R u+rwx "$w"; rm -rf "$w"
[ $bad = 0 ]
