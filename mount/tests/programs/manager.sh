#!/bin/sh
# manager.sh [keep]: the life of a service manager, systemd --user, under `makhloeum run --root` (keep: with --keep memory).
here=$(dirname "$(readlink -f "$0")")
w=$(mktemp -d) || exit 1
. "$here/steps.sh"
# it asks whether the machine was booted by systemd
[ -d /run/systemd/system ] || { mount -t tmpfs tmpfs /run && mkdir -p /run/systemd/system; }
export XDG_RUNTIME_DIR="$w/run" XDG_CONFIG_HOME="$w/config"
mkdir -p "$w/config/systemd/user" && mkdir -m 700 "$w/run"
printf '[Service]\nExecStart=/bin/sh -c "sleep 3600 & sleep 3600 & wait"\nTasksMax=10\n' > "$w/config/systemd/user/box.service"
printf '[Service]\nExecStart=/bin/sh -c "for i in 1 2 3 4 5 6; do sleep 3600 & done; wait"\nTasksMax=4\nRemainAfterExit=yes\n' \
	> "$w/config/systemd/user/full.service"
printf '[Service]\nExecStart=/bin/sleep 0.3\n' > "$w/config/systemd/user/short.service"
S="systemctl --user"
u=/sys/fs/cgroup/user
[ "${1:-}" != keep ] || {
	echo "+pids +memory" > /sys/fs/cgroup/cgroup.subtree_control
	printf 'MemoryMax=16M\n' >> "$w/config/systemd/user/box.service"
}
mkdir /sys/fs/cgroup/init.scope # by its cgroup.freeze systemd knows that there is a freezer
mkdir $u && echo 0 > $u/cgroup.procs
/usr/lib/systemd/systemd --user --unit=basic.target > "$w/log" 2>&1 &
manager=$!
soon "the manager listens" test -S "$w/run/systemd/private"
soon "it runs" $S is-system-running
says "its own group" "0::/user/init.scope" cat /proc/$manager/cgroup
step "start a service" $S start box
g=$u/app.slice/box.service
soon "three processes in its group" grep -qx 3 $g/pids.current
says "ControlGroup" "/user/app.slice/box.service" $S show box -p ControlGroup --value
says "TasksCurrent" 3 $S show box -p TasksCurrent --value
says "pids.max is TasksMax" 10 cat $g/pids.max
step "set-property TasksMax=5" $S set-property --runtime box TasksMax=5
soon "pids.max follows" grep -qx 5 $g/pids.max
if [ "${1:-}" = keep ]; then
	says "memory.max is MemoryMax" 16777216 cat $g/memory.max
	step "systemd-run -p TasksMax= -p MemoryMax=" systemd-run --user --unit=once -p TasksMax=7 -p MemoryMax=8M sleep 3600
	soon "both are written" sh -c "[ \"\$(cat $u/app.slice/once.service/pids.max $u/app.slice/once.service/memory.max | tr '\\n' ' ')\" = '7 8388608 ' ]"
	step "stop it" $S stop once
fi
step "freeze" $S freeze box
says "frozen 1" "frozen 1" tail -n 1 $g/cgroup.events
says "FreezerState" frozen $S show box -p FreezerState --value
step "thaw" $S thaw box
says "frozen 0" "frozen 0" tail -n 1 $g/cgroup.events
step "start a service that forks too often" $S start full
soon "it fails" $S is-failed full
step "start a short one" $S start short
soon "its end is noticed: populated was told" sh -c "[ \"\$($S show short -p ActiveState --value)\" = inactive ]"
step "its group is gone" test ! -e $u/app.slice/short.service
step "kill -s KILL" $S kill -s KILL box
soon "the service has failed" sh -c "[ \"\$($S show box -p Result --value)\" = signal ]"
soon "its group is gone" test ! -e $g
step "start again" $S start box
step "stop" $S stop box
soon "its group is gone" test ! -e $g
step "exit" $S exit
wait $manager
says "status of the manager" 0 echo $?
rm -rf "$w"
[ $bad = 0 ]
