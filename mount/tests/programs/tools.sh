#!/bin/sh
# libcgroup's tools and systemd's readers, under `makhloeum run --root --keep memory,cpu`.
here=$(dirname "$(readlink -f "$0")")
w=$(mktemp -d) || exit 1
. "$here/steps.sh"
g=/sys/fs/cgroup
step "cgcreate -g memory,cpu,pids:box" cgcreate -g memory,cpu,pids:box
step "the group is there" test -d $g/box
step "cgset memory.max=1m" cgset -r memory.max=1048576 box
says "cgget memory.max" 1048576 cgget -nv -r memory.max box
says "cgget cpu.max" "max 100000" cgget -nv -r cpu.max box
step "cgexec" sh -c 'cgexec -g memory,cpu,pids:box cat /proc/self/cgroup | grep -qx 0::/box'
step "lscgroup" sh -c 'lscgroup | grep -q box'
step "systemd-cgls" sh -c 'systemd-cgls --no-pager /sys/fs/cgroup | cat'
step "systemd-cgtop" systemd-cgtop -b -n 1
step "cgdelete" cgdelete -g memory,cpu,pids:box
step "the group is gone" test ! -e $g/box
rm -rf "$w"
[ $bad = 0 ]
