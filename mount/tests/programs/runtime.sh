#!/bin/sh
# runtime.sh runc|crun: the life of a container, under `makhloeum run`; then all of it is undone.
here=$(dirname "$(readlink -f "$0")")
rt=$1
w=$(mktemp -d) || exit 1
. "$here/steps.sh"
g=/sys/fs/cgroup/box
mkdir -p "$w/b/rootfs/bin" "$w/b/rootfs/proc" "$w/b/rootfs/sys" "$w/b/rootfs/dev" "$w/b/rootfs/tmp" "$w/root"
cp "$(command -v busybox)" "$w/b/rootfs/bin/busybox"
for x in sh sleep cat ls true; do ln -s busybox "$w/b/rootfs/bin/$x"; done
(cd "$w/b" && "$rt" spec --rootless)
python3 - "$w/b/config.json" <<'END'
import json, sys
c = json.load(open(sys.argv[1]))
c["process"].update(terminal=False, args=["/bin/sh", "-c", "sleep 3600 & sleep 3600 & wait"], env=["PATH=/bin"])
c["linux"].update(cgroupsPath="/box", resources={"pids": {"limit": 32}})
json.dump(c, open(sys.argv[1], "w"))
END
R="$rt --root $w/root"
[ "$rt" = crun ] && R="$R --cgroup-manager=cgroupfs"

step "create" $R create --bundle "$w/b" c1
says "one process, and a limit of 32" "1 32" sh -c "echo \$(wc -l < $g/cgroup.procs) \$(cat $g/pids.max)"
soon "its threads count" sh -c "[ \$(cat $g/pids.current) = \$(wc -l < $g/cgroup.threads) ]"
step "start" $R start c1
soon "three processes" grep -qx 3 $g/pids.current
step "state: running" sh -c "$R state c1 | grep -q '\"running\"'"
step "ps lists cgroup.procs" sh -c "for p in \$(cat $g/cgroup.procs); do $R ps c1 | grep -qw \$p || exit 1; done"
step "update --pids-limit 24" $R update --pids-limit 24 c1
says "pids.max" 24 cat $g/pids.max
[ "$rt" = runc ] && step "events --stats: current 3, limit 24" sh -c "$R events --stats c1 | grep -q '\"pids\":{\"current\":3,\"limit\":24}'"
step "exec true" $R exec c1 /bin/true
says "exec cat /proc/self/cgroup: its namespace's root" 0::/ $R exec c1 /bin/cat /proc/self/cgroup
says "the same from outside" 0::/box sh -c "cat /proc/\$(head -n 1 $g/cgroup.procs)/cgroup"
step "exec ls /sys/fs/cgroup" $R exec c1 /bin/ls /sys/fs/cgroup
refused "exec that forks beyond the limit" "temporarily unavailable" $R exec c1 /bin/sh -c 'for i in 1 2 3 4 5; do for j in 1 2 3 4 5; do sleep 5 & done; done; wait'
step "the refused fork is counted" sh -c "! grep -qx 'max 0' $g/pids.events"
soon "three processes again" grep -qx 3 $g/pids.current
step "pause" $R pause c1
soon "frozen 1" grep -qx "frozen 1" $g/cgroup.events
step "state: paused" sh -c "$R state c1 | grep -q '\"paused\"'"
step "resume" $R resume c1
step "state: running again" sh -c "$R state c1 | grep -q '\"running\"'"
step "kill --all KILL" $R kill --all c1 KILL
soon "populated 0" grep -qx "populated 0" $g/cgroup.events
soon "state: stopped" sh -c "$R state c1 | grep -q '\"stopped\"'"
step "delete" $R delete c1
step "the group is gone" test ! -e $g
step "the whole life undone, newest first" python3 "$here/undo_all.py"
chmod -R u+rwx "$w"; rm -rf "$w"
[ $bad = 0 ]
