#!/bin/sh
# podman.sh crun|runc [systemd]: the life of podman's container, under `makhloeum run --keep memory,cpu,io,cpuset`. Its image is
# busybox. With `systemd` the groups are made by a systemd of the user's own, over D-Bus, and the run needs --root.
here=$(dirname "$(readlink -f "$0")")
w=$(mktemp -d) || exit 1
. "$here/steps.sh"
c=/sys/fs/cgroup
mkdir $c/init && echo 0 > $c/init/cgroup.procs
echo "+pids +memory +cpu +io +cpuset" > $c/cgroup.subtree_control || exit 1

mkdir -p "$w/rootfs/bin" "$w/tmp" && mkdir -m 700 "$w/run"
cp "$(command -v busybox)" "$w/rootfs/bin/busybox"
for x in sh sleep cat true; do ln -s busybox "$w/rootfs/bin/$x"; done
tar -C "$w/rootfs" -cf "$w/image.tar" .
# its locks are files too, and not in the machine's shared memory; a namespace's superuser may not raise limits beyond his own
cat > "$w/containers.conf" << END
[engine]
lock_type="file"
events_logger="file"
runtime="$1"
[containers]
default_ulimits=["nofile=256:256", "nproc=1000:1000"]
END
export HOME="$w" XDG_RUNTIME_DIR="$w/run" XDG_CONFIG_HOME="$w/config" XDG_DATA_HOME="$w/data" CONTAINERS_CONF="$w/containers.conf"
parent="--cgroup-parent /pods"
groups="$c/pods/libpod-*"
if [ "${2:-}" = systemd ]; then
	parent="" groups="$c/user.slice/libpod-*.scope/container"
	[ -d /run/systemd/system ] || { mount -t tmpfs tmpfs /run && mkdir -p /run/systemd/system; }
	mkdir $c/init.scope
	sh -c "echo 0 > $c/cgroup.procs; exec /usr/lib/systemd/systemd --user --unit=basic.target" > "$w/log" 2>&1 &
	soon "the manager listens" test -S "$w/run/systemd/private"
	soon "it runs" systemctl --user is-system-running
	export DBUS_SESSION_BUS_ADDRESS="unix:path=$w/run/bus"
fi
P="podman --root $w/storage --runroot $w/run --tmpdir $w/tmp --storage-driver vfs --cgroup-manager ${2:-cgroupfs} --log-level error"

step "import an image" $P import "$w/image.tar" box
step "run --memory 64m --cpus 0.5 --pids-limit 20" $P run --detach --name c1 $parent --network none --memory 64m --cpus 0.5 \
	--pids-limit 20 box /bin/sh -c 'sleep 3600 & sleep 3600 & wait'
g=$(echo $groups)
soon "three processes in its group" grep -qx 3 "$g/pids.current"
says "memory.max" 67108864 cat "$g/memory.max"
says "cpu.max" "50000 100000" cat "$g/cpu.max"
says "pids.max" 20 cat "$g/pids.max"
says "inspect: running" running $P inspect --format '{{.State.Status}}' c1
says "exec cat /proc/self/cgroup: its namespace's root" 0::/ $P exec c1 /bin/cat /proc/self/cgroup
refused "exec that forks beyond the limit" "can't fork" $P exec c1 /bin/sh -c 'for i in 1 2 3 4 5 6 7 8 9 10 11 12 13 14 15 16 17 18 19; do sleep 5 & done'
soon "three processes again" grep -qx 3 "$g/pids.current"
says "stats: processes and limit" "3 0B / 67.11MB" $P stats --no-stream --format '{{.PIDs}} {{.MemUsage}}' c1
says "top" 3 sh -c "$P top c1 pid | grep -c '^[0-9]'"
step "pause" $P pause c1
soon "frozen 1" grep -qx "frozen 1" "$g/cgroup.events"
says "inspect: paused" paused $P inspect --format '{{.State.Status}}' c1
says "ps --filter status=paused" c1 $P ps --all --filter status=paused --format '{{.Names}}'
step "unpause" $P unpause c1
soon "frozen 0" grep -qx "frozen 0" "$g/cgroup.events"
step "kill" $P kill c1
says "wait: the status" 137 $P wait c1
step "rm" $P rm c1
step "the group is gone" test ! -e "$g"
step "run to its end: the status" sh -c "$P run --rm $parent --network none box /bin/sh -c 'exit 7'; [ \$? = 7 ]"
step "rmi" $P rmi box
[ -z "${2:-}" ] || step "the manager ends" systemctl --user exit
wait
chmod -R u+rwx "$w"; rm -rf "$w"
[ $bad = 0 ]
