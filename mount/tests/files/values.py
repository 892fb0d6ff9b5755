"""--keep: the files of other controllers take values, give them back in normal form, and refuse as the kernel's code does."""
import glob
import os
import subprocess
import sys

sys.path.insert(0, os.path.dirname(os.path.dirname(os.path.realpath(__file__))))
from support import AT, PATIENCE, PROGRAM, Mount, error_of, finish, inside, read, same, step, write

ME = os.path.realpath(__file__)
PAGE = os.sysconf("SC_PAGE_SIZE")
# The greatest counter of pages, in bytes, means no limit.
NO_LIMIT = (2**63 - 1) // PAGE * PAGE
LIMITS = ("memory.min", "memory.low", "memory.high", "memory.max", "memory.swap.high", "memory.swap.max")
FRESH = {
    "memory.min": "0",
    "memory.low": "0",
    "memory.high": "max",
    "memory.max": "max",
    "memory.swap.high": "max",
    "memory.swap.max": "max",
    "memory.oom.group": "0",
    "memory.current": "0",
    "memory.peak": "0",
    "memory.swap.current": "0",
    "memory.swap.peak": "0",
    "memory.events": "low 0\nhigh 0\nmax 0\noom 0\noom_kill 0\noom_group_kill 0",
    "memory.events.local": "low 0\nhigh 0\nmax 0\noom 0\noom_kill 0\noom_group_kill 0",
    "memory.swap.events": "high 0\nmax 0\nfail 0",
    "cpu.max": "max 100000",
    "cpu.max.burst": "0",
    "cpu.weight": "100",
    "cpu.weight.nice": "0",
    "cpu.idle": "0",
    "cpu.stat": "usage_usec 0\nuser_usec 0\nsystem_usec 0\nnr_periods 0\nnr_throttled 0\nthrottled_usec 0\nnr_bursts 0\nburst_usec 0",
    "io.weight": "default 100",
    "cpuset.cpus": "",
    "cpuset.mems": "",
    "cpuset.cpus.partition": "member",
}
# As the kernel's guide has them (cgroup-v2.rst), in its order.
OF_MEMORY = """anon file kernel kernel_stack pagetables sec_pagetables percpu sock vmalloc shmem zswap zswapped file_mapped file_dirty
file_writeback swapcached anon_thp file_thp shmem_thp inactive_anon active_anon inactive_file active_file unevictable slab_reclaimable
slab_unreclaimable slab workingset_refault_anon workingset_refault_file workingset_activate_anon workingset_activate_file
workingset_restore_anon workingset_restore_file workingset_nodereclaim pgscan pgsteal pgscan_kswapd pgscan_direct pgsteal_kswapd
pgsteal_direct pgfault pgmajfault pgrefill pgactivate pgdeactivate pglazyfree pglazyfreed thp_fault_alloc thp_collapse_alloc"""
EMPTY = {"io.max", "io.stat"}
ON_ROOT = ["cpu.stat", "cpuset.cpus.effective", "cpuset.mems.effective", "io.stat", "memory.stat"]

# What is written to which file, the errno, and what is read then. Where a value has several faults, it is the errno of the first that
# the kernel's code looks for: the number of 64 bits, what follows it, its range, and then what depends on other values.
VALUES = [
    ("memory.max", b"max\n", "ok", "max"),
    ("memory.max", b"%d\n" % (PAGE - 1), "ok", "0"),
    ("memory.max", b" 1M\n", "ok", str(1 << 20)),
    ("memory.max", b"64k", "ok", str(65536)),
    ("memory.max", b"2G\n", "ok", str(2 << 30)),
    ("memory.max", b"1t\n", "ok", str(1 << 40)),
    ("memory.max", b"1p\n", "ok", str(1 << 50)),
    ("memory.max", b"1E\n", "ok", str(1 << 60)),
    ("memory.max", b"0x10000\n", "ok", "65536"),
    ("memory.max", b"0200000\n", "ok", "65536"),
    ("memory.max", b"9223372036854775807\n", "ok", "max"),
    ("memory.max", b"%d\n" % NO_LIMIT, "ok", "max"),
    ("memory.max", b"%d\n" % (NO_LIMIT - PAGE), "ok", str(NO_LIMIT - PAGE)),
    ("memory.max", b"65537\n", "ok", "65536" if PAGE == 4096 else str(65537 // PAGE * PAGE)),
    ("memory.max", b"-1\n", "EINVAL", "65536"),
    ("memory.max", b"1MB\n", "EINVAL", "65536"),
    ("memory.max", b"MAX\n", "EINVAL", "65536"),
    ("memory.max", b"1 2\n", "EINVAL", "65536"),
    ("memory.max", b"08\n", "EINVAL", "65536"),
    ("memory.max", b"\n", "ok", "0"),
    ("memory.max", b"1" * 5000, "E2BIG", "0"),
    ("memory.oom.group", b"1\n", "ok", "1"),
    ("memory.oom.group", b"2\n", "EINVAL", "1"),
    ("memory.oom.group", b"-1\n", "EINVAL", "1"),
    ("memory.oom.group", b"x\n", "EINVAL", "1"),
    ("memory.oom.group", b"4294967296\n", "ERANGE", "1"),
    ("memory.oom.group", b"4294967296x\n", "EINVAL", "1"),
    ("memory.oom.group", b"99999999999999999999x\n", "ERANGE", "1"),
    ("memory.oom.group", b"2147483648\n", "ERANGE", "1"),
    ("memory.oom.group", b"2147483647\n", "EINVAL", "1"),
    ("memory.oom.group", b"-2147483649\n", "ERANGE", "1"),
    ("memory.oom.group", b"-2147483648\n", "EINVAL", "1"),
    ("memory.oom.group", b"0x0\n", "ok", "0"),
    ("cpu.max", b"50000\n", "ok", "50000 100000"),
    ("cpu.max", b"50000 200000\n", "ok", "50000 200000"),
    ("cpu.max", b"max\n", "ok", "max 200000"),
    ("cpu.max", b"max 100000", "ok", "max 100000"),
    ("cpu.max", b"999\n", "EINVAL", "max 100000"),
    ("cpu.max", b"1000 999\n", "EINVAL", "max 100000"),
    ("cpu.max", b"1000 1000001\n", "EINVAL", "max 100000"),
    ("cpu.max", b"1000 1000000\n", "ok", "1000 1000000"),
    ("cpu.max", b"-1\n", "EINVAL", "1000 1000000"),
    ("cpu.max", b"\n", "EINVAL", "1000 1000000"),
    ("cpu.max", b"many\n", "EINVAL", "1000 1000000"),
    ("cpu.max", b"17592186044416 100000\n", "EINVAL", "1000 1000000"),
    ("cpu.max", b"17592186044415 100000\n", "ok", "17592186044415 100000"),
    ("cpu.max", b"20000 100000\n", "ok", "20000 100000"),
    ("cpu.max.burst", b"20000\n", "ok", "20000"),
    ("cpu.max.burst", b"20001\n", "EINVAL", "20000"),
    ("cpu.max", b"10000\n", "EINVAL", "20000 100000"),
    ("cpu.max.burst", b" 1\n", "EINVAL", "20000"),
    ("cpu.max.burst", b"-1\n", "EINVAL", "20000"),
    ("cpu.max.burst", b"18446744073709551615\n", "EINVAL", "20000"),
    ("cpu.max.burst", b"18446744073709551615x\n", "EINVAL", "20000"),
    ("cpu.max.burst", b"18446744073709551616\n", "ERANGE", "20000"),
    ("cpu.max.burst", b"18446744073709551616x\n", "ERANGE", "20000"),
    ("cpu.max.burst", b"0\n", "ok", "0"),
    ("cpu.weight", b"1\n", "ok", "1"),
    ("cpu.weight", b"10000\n", "ok", "10000"),
    ("cpu.weight", b"0\n", "ERANGE", "10000"),
    ("cpu.weight", b"10001\n", "ERANGE", "10000"),
    ("cpu.weight", b"x\n", "EINVAL", "10000"),
    ("cpu.weight", b" 5\n", "EINVAL", "10000"),
    ("cpu.weight", b"99999999999999999999\n", "ERANGE", "10000"),
    ("cpu.weight", b"18446744073709551666\n", "ERANGE", "10000"),
    ("cpu.weight", b"18446744073709551666x\n", "ERANGE", "10000"),
    ("cpu.weight", b"10001x\n", "EINVAL", "10000"),
    ("cpu.weight", b"0 1\n", "EINVAL", "10000"),
    ("cpu.weight", b"0x64\n", "ok", "100"),
    ("cpu.weight.nice", b"-20\n", "ok", "-20"),
    ("cpu.weight.nice", b"19\n", "ok", "19"),
    ("cpu.weight.nice", b"20\n", "ERANGE", "19"),
    ("cpu.weight.nice", b"-21\n", "ERANGE", "19"),
    ("cpu.weight.nice", b"1.5\n", "EINVAL", "19"),
    ("cpu.weight.nice", b"20x\n", "EINVAL", "19"),
    ("cpu.weight.nice", b"9223372036854775808x\n", "EINVAL", "19"),
    ("cpu.weight.nice", b"18446744073709551616x\n", "ERANGE", "19"),
    ("cpu.weight.nice", b"-9223372036854775809x\n", "EINVAL", "19"),
    ("cpu.weight.nice", b"-18446744073709551616x\n", "ERANGE", "19"),
    ("cpu.weight.nice", b"17\n", "ok", "17"),
    ("cpu.weight.nice", b"-+5\n", "EINVAL", "17"),
    ("cpu.weight.nice", b"+5\n", "ok", "5"),
    ("cpu.idle", b"2\n", "EINVAL", "0"),
    ("cpu.idle", b"9223372036854775807\n", "EINVAL", "0"),
    ("cpu.idle", b"9223372036854775808\n", "ERANGE", "0"),
    ("cpu.idle", b"9223372036854775808x\n", "EINVAL", "0"),
    ("cpu.idle", b"-9223372036854775808\n", "EINVAL", "0"),
    ("cpu.idle", b"-9223372036854775809\n", "ERANGE", "0"),
    ("cpu.idle", b"1\n", "ok", "1"),
    ("cpu.weight", b"100\n", "EINVAL", "0"),
    ("cpu.weight", b"1\n", "EINVAL", "0"),
    ("cpu.weight", b"10000\n", "EINVAL", "0"),
    ("cpu.weight", b"0\n", "ERANGE", "0"),
    ("cpu.weight", b"10001\n", "ERANGE", "0"),
    ("cpu.weight", b"10001x\n", "EINVAL", "0"),
    ("cpu.weight", b"18446744073709551616\n", "ERANGE", "0"),
    ("cpu.weight.nice", b"-20\n", "EINVAL", "19"),
    ("cpu.weight.nice", b"19\n", "EINVAL", "19"),
    ("cpu.weight.nice", b"-21\n", "ERANGE", "19"),
    ("cpu.weight.nice", b"20\n", "ERANGE", "19"),
    ("cpu.weight.nice", b"20x\n", "EINVAL", "19"),
    ("cpu.weight.nice", b"9223372036854775808\n", "ERANGE", "19"),
    ("cpu.idle", b"2\n", "EINVAL", "1"),
    ("cpu.idle", b"0\n", "ok", "0"),
    ("cpu.weight", b"100\n", "ok", "100"),
    ("io.weight", b"200\n", "ok", "default 200"),
    ("io.weight", b"default 300\n", "ok", "default 300"),
    ("io.weight", b"0\n", "EINVAL", "default 300"),
    ("io.weight", b"10001\n", "EINVAL", "default 300"),
    ("io.weight", b"x\n", "EINVAL", "default 300"),
    ("io.weight", b"default\n", "EINVAL", "default 300"),
    ("io.max", b"rbps=1\n", "EINVAL", ""),
    ("io.max", b"4095:4095 rbps=1000\n", "ENODEV", ""),
    ("io.max", b"8\n", "EINVAL", ""),
    ("cpuset.cpus", b"0\n", "ok", "0"),
    ("cpuset.cpus", b" 0-0, 0 \n", "ok", "0"),
    ("cpuset.cpus", b"x\n", "EINVAL", "0"),
    ("cpuset.cpus", b"1-0\n", "EINVAL", "0"),
    ("cpuset.cpus", b"0-\n", "EINVAL", "0"),
    ("cpuset.cpus", b"0:1/2\n", "EINVAL", "0"),
    ("cpuset.cpus", b"-1\n", "EINVAL", "0"),
    ("cpuset.cpus", b"8192\n", "ERANGE", "0"),
    ("cpuset.cpus", b"0-0:0/0\n", "EINVAL", "0"),
    ("cpuset.cpus", b"0-0:3/2\n", "EINVAL", "0"),
    ("cpuset.cpus", b"0-0:2/2\n", "ok", "0"),
    ("cpuset.cpus", b"99999999999\n", "EOVERFLOW", "0"),
    ("cpuset.cpus", b"\n", "ok", ""),
    ("cpuset.mems", b"0\n", "ok", "0"),
    ("cpuset.mems", b"1024\n", "ERANGE", "0"),
    ("cpuset.mems", b"1023\n", "EINVAL", "0"),
    ("cpuset.mems", b"\n", "ok", ""),
    ("cpuset.cpus.partition", b"other\n", "EINVAL", "member"),
    ("cpuset.cpus.partition", b"root\n", "ok", "root invalid (cpuset.cpus and cpuset.cpus.exclusive are empty)"),
    ("cpuset.cpus", b"0\n", "ok", "0"),
    ("cpuset.cpus.partition", b"isolated\n", "ok", "isolated"),
    ("cpuset.cpus.partition", b"member\n", "ok", "member"),
]


def numbers(text):
    """The numbers of a list of the kernel's."""
    found = []
    for part in text.strip().split(","):
        first, _, last = part.partition("-")
        found += range(int(first), int(last or first) + 1)
    return found


def kept(*options):
    m = Mount("--keep", "memory,cpu,io,cpuset", *options)
    write(m.path("cgroup.subtree_control"), b"+memory +cpu +io +cpuset +pids\n")
    os.mkdir(m.path("v"))
    return m


def text_of(m, name, group="v"):
    return read(m.path(group, name)).decode()


def fresh():
    m = kept()
    for name, text in FRESH.items():
        same("a new group's " + name, text_of(m, name), text + "\n")
    for name in EMPTY:
        same("a new group's " + name, text_of(m, name), "")
    lines = [x.split() for x in text_of(m, "memory.stat").splitlines()]
    same("the words of memory.stat", [k for k, _ in lines], OF_MEMORY.split())
    same("which are all zero", {v for _, v in lines}, {"0"})
    there = {n for n in os.listdir(m.at) if n.partition(".")[0] in ("memory", "cpu", "io", "cpuset")}
    same("on the root", sorted(there), ON_ROOT)
    same(
        "a counter is not written",
        error_of(os.open, m.path("v", "memory.current"), os.O_WRONLY) if os.getuid() else "EACCES",
        "EACCES",
    )
    m.end()


def values():
    m = kept()
    for name, value, error, text in VALUES:
        said = value if len(value) < 50 else value[:5] + b".."
        same("%s: %r" % (name, said), error_of(write, m.path("v", name), value), error)
        same("%s then" % name, text_of(m, name).rstrip("\n"), text)
    for name in ("memory.oom.group", "cpu.max", "cpu.weight", "cpu.weight.nice", "cpu.idle", "io.max", "io.weight"):
        same("%s: too long, and no value" % name, error_of(write, m.path("v", name), b"x" * 5000), "E2BIG")
    for name in LIMITS:
        same("%s: too long, and no value" % name, error_of(write, m.path("v", name), b"x" * 5000), "E2BIG")
        write(m.path("v", name), b"1m\n")
        same(name, text_of(m, name), "1048576\n")
    step("no line of it reached the engine", "memory" not in open(m.trace).read() and "cpu" not in open(m.trace).read())
    m.end()


def related():
    """Values that depend on others."""
    m = kept()
    for nice, weight in ((-20, 8668), (-1, 125), (0, 100), (1, 80), (10, 11), (19, 1)):
        write(m.path("v", "cpu.weight.nice"), b"%d\n" % nice)
        same(
            "nice %d as weight and as nice" % nice,
            (text_of(m, "cpu.weight"), text_of(m, "cpu.weight.nice")),
            ("%d\n" % weight, "%d\n" % nice),
        )
    write(m.path("v", "cpu.weight"), b"200\n")
    same("weight 200 as nice", text_of(m, "cpu.weight.nice"), "-3\n")
    write(m.path("v", "cpu.weight"), b"37\n")  # 379 shares: as near to 423 of nice 4 as to 335 of nice 5
    same("weight 37 as nice", text_of(m, "cpu.weight.nice"), "4\n")
    write(m.path("v", "cpu.idle"), b"1\n")
    same("an idle group", (text_of(m, "cpu.weight"), text_of(m, "cpu.weight.nice")), ("0\n", "19\n"))
    same("its nice value", error_of(write, m.path("v", "cpu.weight.nice"), b"0\n"), "EINVAL")
    write(m.path("v", "cpu.idle"), b"0\n")
    same("no longer", text_of(m, "cpu.weight"), "100\n")
    possible = numbers(open("/sys/devices/system/cpu/possible").read())
    online = open("/sys/devices/system/cpu/online").read()
    same("the root's processors", text_of(m, "cpuset.cpus.effective", "."), online)
    same("a new group's", text_of(m, "cpuset.cpus.effective"), online)
    write(m.path("v", "cpuset.cpus"), b"all\n")
    same("all", numbers(text_of(m, "cpuset.cpus")), possible)
    write(m.path("v", "cpuset.cpus"), b"0-N:1/2\n")
    same("every other one", numbers(text_of(m, "cpuset.cpus")), [n for n in range(possible[-1] + 1) if n % 2 == 0])
    if len(possible) > 1:
        write(m.path("v", "cpuset.cpus"), b"1-N:1/2\n")
        same("from the second on", numbers(text_of(m, "cpuset.cpus")), [n for n in possible if n % 2])
    same("one too many", error_of(write, m.path("v", "cpuset.cpus"), b"%d\n" % (possible[-1] + 1)), "ERANGE")
    write(m.path("v", "cpuset.cpus"), b"0\n")
    write(m.path("v", "cgroup.subtree_control"), b"+cpuset\n")
    os.mkdir(m.path("v", "w"))
    same("a group below has what is left", text_of(m, "w/cpuset.cpus.effective"), "0\n")
    same("memory nodes", text_of(m, "w/cpuset.mems.effective"), text_of(m, "cpuset.mems.effective", "."))
    write(m.path("v", "w", "cpuset.cpus"), b"0\n")
    write(m.path("v", "w", "cpuset.cpus.partition"), b"root\n")
    same(
        "a partition below a member",
        text_of(m, "w/cpuset.cpus.partition"),
        "root invalid (Parent is not a partition root)\n",
    )
    write(m.path("v", "cpuset.cpus.partition"), b"root\n")
    same("below a partition", text_of(m, "w/cpuset.cpus.partition"), "root\n")
    write(m.path("v", "cpuset.cpus"), b"\n")
    same(
        "below an invalid one",
        text_of(m, "w/cpuset.cpus.partition"),
        "root invalid (Parent is an invalid partition root)\n",
    )
    m.end()


def devices():
    """io.max and io.weight: a line for each device of this machine that has a limit."""
    m = kept()
    found = sorted(os.path.basename(d) for d in glob.glob("/sys/dev/block/*") if not os.path.exists(d + "/partition"))
    if len(found) < 2:
        step("this machine has no two block devices: io.max is left out", True)
        m.end()
        return
    a, b = found[:2]
    tries = [
        (a, "rbps=1000", "ok", a + " rbps=1000 wbps=max riops=max wiops=max\n"),
        (a, "wiops=5 riops=max", "ok", a + " rbps=1000 wbps=max riops=max wiops=5\n"),
        (a, "rbps=0", "ERANGE", a + " rbps=1000 wbps=max riops=max wiops=5\n"),
        (a, "rbps=1", "EINVAL", a + " rbps=1000 wbps=max riops=max wiops=5\n"),
        (a.split(":")[0] + ":1048575", "rbps=9", "ENODEV", a + " rbps=1000 wbps=max riops=max wiops=5\n"),
        ("4095:" + a.split(":")[1], "rbps=9", "ENODEV", a + " rbps=1000 wbps=max riops=max wiops=5\n"),
        (a, "bps=10", "EINVAL", a + " rbps=1000 wbps=max riops=max wiops=5\n"),
        (a, "rbps", "EINVAL", a + " rbps=1000 wbps=max riops=max wiops=5\n"),
        (a, "rbps=x", "EINVAL", a + " rbps=1000 wbps=max riops=max wiops=5\n"),
        (a, "riops=99999999999", "ok", a + " rbps=1000 wbps=max riops=max wiops=5\n"),
        (
            b,
            "wbps=2000",
            "ok",
            a + " rbps=1000 wbps=max riops=max wiops=5\n" + b + " rbps=max wbps=2000 riops=max wiops=max\n",
        ),
        (a, "rbps=max wiops=max", "ok", b + " rbps=max wbps=2000 riops=max wiops=max\n"),
        (b, "wbps=max", "ok", ""),
    ]
    for device, words, error, text in tries:
        same(
            "io.max: %s %s" % (device, words),
            error_of(write, m.path("v", "io.max"), ("%s %s\n" % (device, words)).encode()),
            error,
        )
        same("io.max then", text_of(m, "io.max"), text)
    for words, error, text in (
        (a + " 50", "ok", "default 100\n%s 50\n" % a),
        (a + " 0", "EINVAL", "default 100\n%s 50\n" % a),
        ("400", "ok", "default 400\n%s 50\n" % a),
        (a + " default", "ok", "default 400\n"),
    ):
        same("io.weight: " + words, error_of(write, m.path("v", "io.weight"), words.encode() + b"\n"), error)
        same("io.weight then", text_of(m, "io.weight"), text)
    m.end()


def of_disks():
    """Inside a run for which the machine has the disks 7:1, 7:10 and 8:0, and 8:1 is a part of a disk."""
    write(AT + "/cgroup.subtree_control", b"+io")
    os.mkdir(AT + "/v")
    for name, words, error, text in (
        ("io.max", "7:10 rbps=10", "ok", "7:10 rbps=10 wbps=max riops=max wiops=max\n"),
        ("io.max", "7:1 wbps=max", "ok", "7:10 rbps=10 wbps=max riops=max wiops=max\n"),
        (
            "io.max",
            "7:1 riops=1000",
            "ok",
            "7:10 rbps=10 wbps=max riops=max wiops=max\n7:1 rbps=max wbps=max riops=1000 wiops=max\n",
        ),
        ("io.max", "7:10 rbps=max", "ok", "7:1 rbps=max wbps=max riops=1000 wiops=max\n"),
        ("io.max", "8:1 rbps=10", "ENODEV", "7:1 rbps=max wbps=max riops=1000 wiops=max\n"),
        ("io.max", "8:10 rbps=10", "ENODEV", "7:1 rbps=max wbps=max riops=1000 wiops=max\n"),
        ("io.max", "7:1 riops=max", "ok", ""),
        ("io.max", "10:7 rbps=10", "ENODEV", ""),
        ("io.max", "9:1 rbps=10", "ENODEV", ""),
        ("io.max", "9:2 rbps=10", "ENODEV", ""),
        ("io.max", "8:0 rbps=2 wbps=3 riops=4 wiops=5", "ok", "8:0 rbps=2 wbps=3 riops=4 wiops=5\n"),
        # bytes have 64 bits, operations have 32
        ("io.max", "8:0 rbps=8589934592", "ok", "8:0 rbps=8589934592 wbps=3 riops=4 wiops=5\n"),
        ("io.max", "8:0 wbps=8589934593", "ok", "8:0 rbps=8589934592 wbps=8589934593 riops=4 wiops=5\n"),
        ("io.max", "8:0 riops=4294967295", "ok", "8:0 rbps=8589934592 wbps=8589934593 riops=max wiops=5\n"),
        ("io.max", "8:0 riops=4 wiops=8589934594", "ok", "8:0 rbps=8589934592 wbps=8589934593 riops=4 wiops=max\n"),
        ("io.max", "8:0 wiops=5", "ok", "8:0 rbps=8589934592 wbps=8589934593 riops=4 wiops=5\n"),
        ("io.max", "8:0 wbps=7 rbps=max", "ok", "8:0 rbps=max wbps=7 riops=4 wiops=5\n"),
        ("io.max", "8:0 rbps=6 wbps=1", "EINVAL", "8:0 rbps=max wbps=7 riops=4 wiops=5\n"),
        ("io.max", "8:0 rbps=6 rbps=8", "ok", "8:0 rbps=8 wbps=7 riops=4 wiops=5\n"),
        ("io.max", "8:0", "ok", "8:0 rbps=8 wbps=7 riops=4 wiops=5\n"),
        ("io.max", "8:0rbps=9", "EINVAL", "8:0 rbps=8 wbps=7 riops=4 wiops=5\n"),
        ("io.max", "8:0\trbps=9", "ok", "8:0 rbps=9 wbps=7 riops=4 wiops=5\n"),
        ("io.max", " 08:00 rbps=10", "ok", "8:0 rbps=10 wbps=7 riops=4 wiops=5\n"),
        ("io.max", "8: 0 rbps=11", "ok", "8:0 rbps=11 wbps=7 riops=4 wiops=5\n"),
        ("io.max", "8: \t0 rbps=10", "ok", "8:0 rbps=10 wbps=7 riops=4 wiops=5\n"),
        ("io.max", "8 :0 rbps=9", "EINVAL", "8:0 rbps=10 wbps=7 riops=4 wiops=5\n"),
        ("io.max", "8::0 rbps=9", "EINVAL", "8:0 rbps=10 wbps=7 riops=4 wiops=5\n"),
        ("io.max", "8:+0 rbps=9", "EINVAL", "8:0 rbps=10 wbps=7 riops=4 wiops=5\n"),
        ("io.max", "8:0x0 rbps=9", "EINVAL", "8:0 rbps=10 wbps=7 riops=4 wiops=5\n"),
        ("io.max", "8:0 RBPS=9", "EINVAL", "8:0 rbps=10 wbps=7 riops=4 wiops=5\n"),
        ("io.max", "8:0 rbps=-9", "EINVAL", "8:0 rbps=10 wbps=7 riops=4 wiops=5\n"),
        ("io.max", "8:0 rbps= 9", "EINVAL", "8:0 rbps=10 wbps=7 riops=4 wiops=5\n"),
        ("io.max", "8:0 rbpsx=9", "EINVAL", "8:0 rbps=10 wbps=7 riops=4 wiops=5\n"),
        (
            "io.max",
            "8:0 rbps=18446744073709551614 riops=4294967294 wiops=4294967295",
            "ok",
            "8:0 rbps=18446744073709551614 wbps=7 riops=4294967294 wiops=max\n",
        ),
        ("io.max", "8:0 rbps=18446744073709551615 riops=4294967296 wbps=max", "ok", ""),
        # the kernel takes 26 bytes for a word, and a number of more than 64 bits wraps around
        ("io.max", "8:0 wiops=00000000000000000009", "ok", "8:0 rbps=max wbps=max riops=max wiops=9\n"),
        ("io.max", "8:0 wiops=100000000000000000000", "EINVAL", "8:0 rbps=max wbps=max riops=max wiops=9\n"),
        ("io.max", "8:0 rbps=18446744073709551623", "ok", "8:0 rbps=7 wbps=max riops=max wiops=9\n"),
        # a value with two faults
        ("io.max", "9:1x rbps=9", "EINVAL", "8:0 rbps=7 wbps=max riops=max wiops=9\n"),
        ("io.max", "9:1 rbps", "ENODEV", "8:0 rbps=7 wbps=max riops=max wiops=9\n"),
        ("io.max", "9:1 rbps=0", "ENODEV", "8:0 rbps=7 wbps=max riops=max wiops=9\n"),
        ("io.max", "9:1 bps=9", "ENODEV", "8:0 rbps=7 wbps=max riops=max wiops=9\n"),
        ("io.max", "8:1 rbps=0", "ENODEV", "8:0 rbps=7 wbps=max riops=max wiops=9\n"),
        ("io.max", "8:0 bps=0", "ERANGE", "8:0 rbps=7 wbps=max riops=max wiops=9\n"),
        ("io.max", "8:0 bps=x", "EINVAL", "8:0 rbps=7 wbps=max riops=max wiops=9\n"),
        ("io.max", "8:0 rbps=0 wbps=1", "ERANGE", "8:0 rbps=7 wbps=max riops=max wiops=9\n"),
        ("io.max", "8:0 wbps=1 rbps=0", "EINVAL", "8:0 rbps=7 wbps=max riops=max wiops=9\n"),
        ("io.max", "8:0 rbps=0 bps=9", "ERANGE", "8:0 rbps=7 wbps=max riops=max wiops=9\n"),
        ("io.max", "8:0 bps=9 rbps=0", "EINVAL", "8:0 rbps=7 wbps=max riops=max wiops=9\n"),
        ("io.max", "8:0 rbps=max wiops=max", "ok", ""),
        ("io.weight", "7:10 50", "ok", "default 100\n7:10 50\n"),
        ("io.weight", "7:1 60", "ok", "default 100\n7:10 50\n7:1 60\n"),
        ("io.weight", "7:10 default", "ok", "default 100\n7:1 60\n"),
        ("io.weight", "8:1 50", "ENODEV", "default 100\n7:1 60\n"),
        ("io.weight", "8:1 0", "ENODEV", "default 100\n7:1 60\n"),
        ("io.weight", "8:1 x", "ENODEV", "default 100\n7:1 60\n"),
        ("io.weight", "9:1 10001", "ENODEV", "default 100\n7:1 60\n"),
        ("io.weight", "9:1x 50", "EINVAL", "default 100\n7:1 60\n"),
        ("io.weight", "7:1 0", "EINVAL", "default 100\n7:1 60\n"),
        ("io.weight", "7:1 10001", "EINVAL", "default 100\n7:1 60\n"),
        ("io.weight", "7:1 10000", "ok", "default 100\n7:1 10000\n"),
        ("io.weight", "7:1 x", "EINVAL", "default 100\n7:1 10000\n"),
        ("io.weight", "7:1 ", "EINVAL", "default 100\n7:1 10000\n"),
        ("io.weight", "7:1 defaulx", "EINVAL", "default 100\n7:1 10000\n"),
        ("io.weight", "default 5", "ok", "default 5\n7:1 10000\n"),
        ("io.weight", "8:0\t1", "ok", "default 5\n7:1 10000\n8:0 1\n"),
        ("io.weight", "7:1 default", "ok", "default 5\n8:0 1\n"),
        ("io.weight", "7:1 default", "ok", "default 5\n8:0 1\n"),
    ):
        file = AT + "/v/" + name
        same("%s: %s" % (name, words), error_of(write, file, words.encode() + b"\n"), error)
        same("%s then" % name, read(file).decode(), text)
    for name, value in (("io.max", b"wiops=9"), ("io.weight", b"9"), ("io.weight", b"default")):
        taken = [n for n in range(1, 256) if error_of(write, AT + "/v/" + name, b"8:0%c%s" % (n, value)) == "ok"]
        same("%s: what may be between a device and %s" % (name, value.decode()), bytes(taken), b"\t\n\v\f\r \xa0")


def of_many():
    """Inside a run for which the machine has the disks 100:100 to 100:199: more than a file has room for."""
    write(AT + "/cgroup.subtree_control", b"+io")
    os.mkdir(AT + "/v")
    file, text = AT + "/v/io.max", ""

    def line(device, size):
        """A line of this size: its rate has as many digits as it takes."""
        words = "100:%d rbps=%s wbps=max riops=max wiops=max\n"
        return words % (device, "1" * (size - len(words % (device, ""))))

    for device in range(100, 172):
        added = line(device, 56 if device < 171 else 59)
        write(file, added.encode())
        text += added
    same("of 72 devices", read(file).decode(), text)
    same("a line that is one byte too long", error_of(write, file, line(172, 61).encode()), "ENOMEM")
    same("is not there", read(file).decode(), text)
    same("one that just fits", error_of(write, file, line(172, 60).encode()), "ok")
    same("is there", (read(file).decode(), len(read(file))), (text + line(172, 60), 4095))


def elsewhere(what, script, keep, test):
    """A run on a machine that looks as the script makes it."""
    words = ["unshare", "-Urm", "sh", "-ec", script + '\ncd /\nexec "$0" run --keep %s -- "$@"' % keep]
    ran = subprocess.run([*words, PROGRAM, sys.executable, ME, "inside", test.__name__], timeout=4 * PATIENCE)
    same("the status of a run %s" % what, ran.returncode, 0)


def disks():
    script = """mount -t tmpfs none /sys/dev/block; cd /sys/dev/block
mkdir 7:1 7:10 8:0 8:1 9:1x x 9:2:3 9; touch 8:1/partition"""
    elsewhere("with these disks", script, "io", of_disks)
    script = "mount -t tmpfs none /sys/dev/block; cd /sys/dev/block; for i in $(seq 100 199); do mkdir 100:$i; done"
    elsewhere("with many disks", script, "io", of_many)


PROCESSORS = """mount -t tmpfs none /sys/devices/system; cd /sys/devices/system; mkdir cpu node
echo %s >cpu/possible; echo %s >cpu/online; echo %s >node/possible; echo %s >node/has_memory"""


def processors():
    elsewhere("with these processors", PROCESSORS % ("0-3,8", "0-1,8", "0-2", "0,2"), "cpuset", of_processors)
    elsewhere("with none that it knows", "mount -t tmpfs none /sys/devices/system", "cpuset", of_none)
    elsewhere("with as many as a kernel can have", PROCESSORS % ("0-8191", "0-8191:1/2", "0", "0"), "cpuset", of_most)
    elsewhere("with one more", PROCESSORS % ("0-8192", "8192", "0", "0"), "cpuset", of_none)
    elsewhere("with what is no list", PROCESSORS % ("x", "0-", "''", "0-3x"), "cpuset", of_none)


def tries(rows):
    """Each row: a file, what is written, the errno; and the file and the text that are read then."""
    for name, words, error, shown, text in rows:
        same("%s: %s" % (name, words), error_of(write, AT + "/v/" + name, words.encode() + b"\n"), error)
        same("%s then" % shown, read(AT + "/v/" + shown).decode(), text)


def of_processors():
    """Processors 0 to 3 and 8 are possible, and 0, 1 and 8 online; nodes 0 to 2 are possible, and 0 and 2 have memory."""
    write(AT + "/cgroup.subtree_control", b"+cpuset")
    os.mkdir(AT + "/v")
    cpus, mems, all_cpus, all_mems = "cpuset.cpus", "cpuset.mems", "0-1,8\n", "0,2\n"
    for group in ("", "/v"):
        got = read(AT + group + "/cpuset.cpus.effective"), read(AT + group + "/cpuset.mems.effective")
        same("those of %s" % (group or "the root"), got, (all_cpus.encode(), all_mems.encode()))
    tries(
        (
            (cpus, "0-3,8", "ok", "cpuset.cpus.effective", all_cpus),
            (cpus, "8", "ok", "cpuset.cpus.effective", "8\n"),
            (cpus, "1-3", "ok", "cpuset.cpus.effective", "1\n"),
            (cpus, "2-3", "ok", "cpuset.cpus.effective", all_cpus),
            (cpus, "4", "EINVAL", cpus, "2-3\n"),
            (cpus, "3-8", "EINVAL", cpus, "2-3\n"),
            (cpus, "all", "EINVAL", cpus, "2-3\n"),
            (cpus, "9", "ERANGE", cpus, "2-3\n"),
            (cpus, "N", "ok", cpus, "8\n"),
            (cpus, "0-N:1/8", "ok", cpus, "0,8\n"),
            # lists with two faults: within a range the numbers come first, then its order and its pattern, then the last
            # number; a range is looked at before the next; and what the machine has comes at the end
            *(
                (cpus, words, error, cpus, "0,8\n")
                for words, error in (
                    ("9x", "EINVAL"),
                    ("99999999999x", "EOVERFLOW"),
                    ("99999999999-1", "EOVERFLOW"),
                    ("9-99999999999", "EOVERFLOW"),
                    ("x-99999999999", "EINVAL"),
                    ("9-1", "EINVAL"),
                    ("9-8", "EINVAL"),
                    ("0-9:1", "EINVAL"),
                    ("0-9:0/0", "EINVAL"),
                    ("0-9:3/2", "EINVAL"),
                    ("4-3", "EINVAL"),
                    ("0-9:99999999999/x", "EOVERFLOW"),
                    ("0-9:x/99999999999", "EINVAL"),
                    ("0-99999999999:3/2", "EOVERFLOW"),
                    ("9,x", "ERANGE"),
                    ("x,9", "EINVAL"),
                    ("9,99999999999", "ERANGE"),
                    ("99999999999,9", "EOVERFLOW"),
                    ("9,2-1", "ERANGE"),
                    ("2-1,9", "EINVAL"),
                    ("4,9", "ERANGE"),
                    ("9,4", "ERANGE"),
                    ("4,99999999999", "EOVERFLOW"),
                )
            ),
            (mems, "0-2", "ok", "cpuset.mems.effective", all_mems),
            (mems, "1-2", "ok", "cpuset.mems.effective", "2\n"),
            (mems, "1", "ok", "cpuset.mems.effective", all_mems),
            (mems, "3", "EINVAL", mems, "1\n"),
            (mems, "N", "EINVAL", mems, "1\n"),
            (mems, "1023", "EINVAL", mems, "1\n"),
            (mems, "1024", "ERANGE", mems, "1\n"),
            (mems, "3,1024", "ERANGE", mems, "1\n"),
            (mems, "1024,3", "ERANGE", mems, "1\n"),
            (mems, "1024-3", "EINVAL", mems, "1\n"),
            (mems, "1024,x", "ERANGE", mems, "1\n"),
            (mems, "x,1024", "EINVAL", mems, "1\n"),
            (mems, "", "ok", "cpuset.mems.effective", all_mems),
        )
    )


def of_none():
    """The machine does not say what it has: that counts as one processor and one node."""
    write(AT + "/cgroup.subtree_control", b"+cpuset")
    os.mkdir(AT + "/v")
    for name, beyond in (("cpuset.cpus", "ERANGE"), ("cpuset.mems", "EINVAL")):
        same(
            name + ".effective", (read(AT + "/%s.effective" % name), read(AT + "/v/%s.effective" % name)), (b"0\n",) * 2
        )
        tries(((name, "0", "ok", name, "0\n"), (name, "1", beyond, name, "0\n")))


def of_most():
    """Processors 0 to 8191 are possible, and every other one is online. A list is kept if its text fits into a file, with its end."""
    write(AT + "/cgroup.subtree_control", b"+cpuset")
    os.mkdir(AT + "/v")
    cpus = "cpuset.cpus"
    fits = ",".join(map(str, range(1000, 2637, 2))) + "\n"
    same("the text that just fits", len(fits), 4095)
    tries(
        (
            (cpus, "all", "ok", cpus, "0-8191\n"),
            (cpus, "8190-N", "ok", cpus, "8190-8191\n"),
            (cpus, "8192", "ERANGE", cpus, "8190-8191\n"),
            (cpus, "N", "ok", cpus, "8191\n"),
            (cpus, "1000-2636:1/2", "ok", cpus, fits),
            (cpus, "2 100 1000-2634:1/2", "ENOMEM", cpus, fits),
            (cpus, "0-N:1/2", "ENOMEM", cpus, fits),
            (cpus, "0-3", "ok", "cpuset.cpus.effective", "0,2\n"),
        )
    )
    same("a list that is longer than a file", read(AT + "/cpuset.cpus.effective"), b"\n")


def lives():
    """Values are created and removed with their group."""
    m = kept()
    write(m.path("v", "memory.max"), b"1m\n")
    fd = os.open(m.path("v", "memory.max"), os.O_RDWR)
    same("its size", os.fstat(fd).st_size, len("1048576\n"))
    os.rmdir(m.path("v"))
    same(
        "an open file of a removed group",
        (error_of(os.read, fd, 9), error_of(os.write, fd, b"1\n")),
        ("ENODEV", "ENODEV"),
    )
    os.close(fd)
    os.mkdir(m.path("v"))
    same("a new group is another", text_of(m, "memory.max"), "max\n")
    write(m.path("v", "memory.max"), b"1m\n")
    write(m.path("v", "cpu.max"), b"5000\n")
    write(m.path("cgroup.subtree_control"), b"-memory\n")
    same("a controller that was disabled", error_of(read, m.path("v", "memory.max")), "ENOENT")
    same("another stays", text_of(m, "cpu.max"), "5000 100000\n")
    write(m.path("cgroup.subtree_control"), b"+memory\n")
    same("enabled again, it is new", text_of(m, "memory.max"), "max\n")
    os.mkdir(m.path("u"))
    write(m.path("u", "memory.max"), b"1m\n")
    write(m.control("undo"), b"1\n")
    os.mkdir(m.path("u"))
    same("an undone group leaves nothing", text_of(m, "memory.max", "u"), "max\n")
    for i in range(2000):
        write(m.path("v", "memory.max"), b"%dk\n" % (4 * i))
    same("the last of two thousand", text_of(m, "memory.max"), "%d\n" % (4096 * 1999))
    m.end()


inside(of_disks, of_many, of_processors, of_none, of_most)
for test in (fresh, values, related, devices, disks, processors, lives):
    test()
finish()
