"""Numbers, words and blanks at their bounds, in every file that takes a value: the errno, and what is read then. `bounds.py` tries the
tables on a mount, `bounds.py kernel` those of the files that every kernel has on the cgroup2 of this machine."""
import os
import sys

sys.path.insert(0, os.path.dirname(os.path.dirname(os.path.realpath(__file__))))
from on_kernel import new_group
from support import Mount, error_of, finish, read, same, step, write

LL = 2**63
BLANKS = b" \t\n\v\f\r\xa0"
NO_BLANKS = b"\x01\x07\x08\x0e\x1b\x1f\x7f\x80\x85\x9f\xa1\xc2"
INT = 2**31 - 1

# Texts that are a number, in any base and with a sign, and the number.
NUMBERS = [
    (b"0", 0),
    (b"00", 0),
    (b"7", 7),
    (b"+7", 7),
    (b"-0", 0),
    (b"+0x0", 0),
    (b"010", 8),
    (b"0377", 255),
    (b"00000000000000000000000000000017", 15),
    (b"0x9", 9),
    (b"0xa", 10),
    (b"0xF", 15),
    (b"0XfEdCb", 0xFEDCB),
    (b"0xabcdef", 0xABCDEF),
    (b"0xABCDEF", 0xABCDEF),
    (b"+0x10", 16),
    (b"1234567890", 1234567890),
    (b"0012345670", 0o12345670),
    (b"%d" % (INT - 1), INT - 1),
]
# Texts that are none.
NO_NUMBERS = [
    b"x",
    b"0x",
    b"0xg",
    b"0x 1",
    b"x1",
    b"08",
    b"0778",
    b"1a",
    b"1_000",
    b"1,000",
    b"1.0",
    b"1e3",
    b"0b1",
    b"0o7",
    b"+",
    b"-",
    b"+-5",
    b"-+5",
    b"++5",
    b"--5",
    b"+ 5",
    b"- 5",
    b"1 2",
    b"5 max",
    b"maxx",
    b"ma",
    b"MAX",
    b"Max",
    b"max 5",
    b"+max",
    b"0max",
    b" ",
    b"\n",
    b"\0",
    b"inf",
    b"nan",
    b"true",
]
# Numbers beyond 64 bits.
BEYOND = [
    b"9223372036854775808",
    b"-9223372036854775809",
    b"18446744073709551615",
    b"18446744073709551616",
    b"18446744073709551623",
    b"-18446744073709551615",
    b"184467440737095516165",
    b"200000000000000000000",
    b"-184467440737095516165",
    b"0xffffffffffffffff",
    b"0x8000000000000000",
    b"0x100000000000000005",
    b"020000000000000000000005",
    b"01000000000000000000000",
    b"99999999999999999999999999999999",
]


def put(group, name, value):
    """Writes one value; the errno."""
    fd = os.open(os.path.join(group, name), os.O_WRONLY)
    try:
        return error_of(os.write, fd, value).replace("ENOTSUP", "EOPNOTSUPP")
    finally:
        os.close(fd)


def tries(group, name, rows, show=lambda value: value):
    """Each row: a text, the errno, and what the file shows then; None: what it has shown before."""
    wrong, shows = [], read(os.path.join(group, name))
    for value, error, text in rows:
        shows = shows if text is None else text
        got = put(group, name, value), read(os.path.join(group, name))
        if got != (error, shows):
            wrong.append((value[:40], got, (error, shows)))
            put(group, name, b"max")
            shows = read(os.path.join(group, name))
    same("%s: %d texts" % (name, len(rows)), wrong[:6], [])


def padded(value, text):
    """The value between blanks, with other bytes beside it, and after a zero byte."""
    for c in BLANKS:
        b = bytes([c])
        yield b + value, "ok", text
        yield value + b, "ok", text
        yield b * 3 + value + b * 2, "ok", text
    for c in NO_BLANKS:
        b = bytes([c])
        yield b + value, "EINVAL", None
        yield value + b, "EINVAL", None
    yield BLANKS + value + BLANKS, "ok", text
    yield value + b"\0", "ok", text
    yield value + b"\0junk", "ok", text
    yield value + b"\n\0\n", "ok", text
    yield value + b"\n\n", "ok", text
    yield b"\0" + value, "EINVAL", None


def sized(value, text):
    """As long as a write may be, and one byte longer."""
    for size in (4095, 4096):
        yield value.rjust(size), "ok", text
        yield value.ljust(size), "ok", text
        yield value.ljust(size, b"\n"), "ok", text
        yield value.rjust(size - 1) + b"\n", "ok", text
    for size in (4097, 4098, 8192):
        yield value.rjust(size), "E2BIG", None
        yield value.ljust(size), "E2BIG", None


def limits(group):
    """cgroup.max.depth and cgroup.max.descendants."""
    for name in ("cgroup.max.depth", "cgroup.max.descendants"):
        rows = [(text, "ok", b"%d\n" % n) for text, n in NUMBERS]
        rows += [(text, "EINVAL", None) for text in NO_NUMBERS] + [(text, "ERANGE", None) for text in BEYOND]
        rows += [
            (b"%d" % n, "ERANGE", None)
            for n in (-1, -7, INT + 1, 2**32, 2**32 + 1, 2**32 + 7, LL - 1, -LL, -(2**32))
        ]
        rows += [(b"max", "ok", b"max\n"), (b"3", "ok", b"3\n"), (b"%d" % INT, "ok", b"max\n"), (b"-1", "ERANGE", None)]
        rows += [*padded(b"41", b"41\n"), *padded(b"max", b"max\n"), *sized(b"43", b"43\n"), *sized(b"max", b"max\n")]
        tries(group, name, rows)


def switches(group):
    """cgroup.freeze, and cgroup.kill of a group without processes."""
    rows = [(text, "ok" if n < 2 else "ERANGE", b"%d\n" % n if n < 2 else None) for text, n in NUMBERS]
    rows += [(text, "EINVAL", None) for text in NO_NUMBERS] + [(b"max", "EINVAL", None)]
    rows += [(text, "ERANGE", None) for text in BEYOND]
    rows += [(b"1", "ok", b"1\n"), (b"2", "ERANGE", None), (b"-1", "ERANGE", None), (b"%d" % 2**32, "ERANGE", None)]
    rows += [*padded(b"0", b"0\n"), *padded(b"1", b"1\n"), *sized(b"0", b"0\n"), *sized(b"0x1", b"1\n")]
    tries(group, "cgroup.freeze", rows)
    put(group, "cgroup.freeze", b"0")
    wrong = []
    for value, error, text in rows:
        wanted = "ERANGE" if text == b"0\n" else error
        if error == "ok" and text is not None:
            wanted = "ok" if text == b"1\n" else "ERANGE"
        got = put(group, "cgroup.kill", value)
        if got != wanted:
            wrong.append((value[:40], got, wanted))
    same("cgroup.kill: %d texts" % len(rows), wrong[:6], [])


def processes(group):
    """cgroup.procs: numbers of nobody."""
    wrong = []
    nobody = [text for text, n in NUMBERS if n > 4194303]
    rows = [(text, "ESRCH") for text in (*nobody, b"4194304", b"+4194304", b"0x400000", b"%d" % INT, b"  4194304\n\n")]
    rows += [
        (text, "EINVAL") for text in (*NO_NUMBERS, *BEYOND, b"-1", b"%d" % (INT + 1), b"%d" % (2**32 + 1), b"max")
    ]
    rows += [(b"4194304".rjust(4096), "ESRCH"), (b"4194304".rjust(4097), "E2BIG"), (b"4194304\0 5", "ESRCH")]
    for value, wanted in rows:
        got = put(group, "cgroup.procs", value)
        if got != wanted:
            wrong.append((value[:40], got, wanted))
    same("cgroup.procs: %d texts" % len(rows), wrong[:6], [])
    same("nobody has come", read(os.path.join(group, "cgroup.procs")), b"")


def words(group, other="EINVAL"):
    """cgroup.subtree_control without a word, and what cgroup.type does not take."""
    wrong = []
    rows = [("cgroup.type", text, other) for text in (b"x", b"domai", b"domainx", b"DOMAIN", b"1", b"threade")]
    rows += [("cgroup.subtree_control", text, "ok") for text in (b" ", b"\n", b"   \n", b" " * 4096)]
    rows += [("cgroup.subtree_control", b" " * 4097, "E2BIG")]
    rows += [("cgroup.type", b"x".rjust(4096), other), ("cgroup.type", b"x".rjust(4097), "E2BIG")]
    for name, value, wanted in rows:
        got = put(group, name, value)
        if got != wanted:
            wrong.append((name, value[:40], got, wanted))
    same("words: %d texts" % len(rows), wrong[:6], [])


# ---------------------------------------------------------------- what only the mount has here

# The weight of each nice value from -20 to 19, as the scheduler of the kernel has it in its sources.
SHARES = """88761 71755 56483 46273 36291 29154 23254 18705 14949 11916 9548 7620 6100 4904 3906 3121 2501 1991 1586 1277 1024 820 655 526
423 335 272 215 172 137 110 87 70 56 45 36 29 23 18 15""".split()


def pids(m):
    os.mkdir(m.path("p"))
    most = 4194304
    rows = [(text, "ok", b"%d\n" % n) for text, n in NUMBERS if n <= most]
    rows += [(text, "EINVAL", None) for text, n in NUMBERS if n > most] + [
        (text, "EINVAL", None) for text in NO_NUMBERS
    ]
    rows += [(text, "ERANGE", None) for text in BEYOND]
    rows += [(b"%d" % n, "EINVAL", None) for n in (-1, most + 1, INT, INT + 1, 2**32, 2**32 + 5, LL - 1, -LL)]
    rows += [(b"%d" % most, "ok", b"%d\n" % most), (b"max", "ok", b"max\n")]
    rows += [*padded(b"41", b"41\n"), *padded(b"max", b"max\n"), *sized(b"43", b"43\n"), *sized(b"max", b"max\n")]
    tries(m.path("p"), "pids.max", rows)


def memory(v):
    rows = [
        *padded(b"1m", b"1048576\n"),
        *padded(b"max", b"max\n"),
        *sized(b"2m", b"2097152\n"),
        *sized(b"max", b"max\n"),
    ]
    rows = [row for row in rows if row[0] != b"\x001m" and row[0] != b"\0max"]  # no bytes are 0
    for n, letter in enumerate("kmgtpe"):
        for each in (letter, letter.upper()):
            rows += [(b"4" + each.encode(), "ok", b"%d\n" % (4 << 10 * (n + 1)) if n < 5 else b"%d\n" % (4 << 60))]
            rows += [(b"4%sb" % each.encode(), "EINVAL", None), (b"4 %s" % each.encode(), "EINVAL", None)]
    rows += [
        (b"7e", "ok", b"%d\n" % (7 << 60)),
        (b"8e", "ok", b"max\n"),
        # bytes have 64 bits, and wrap around
        (b"16e", "ok", b"0\n"),
        (b"17e", "ok", b"%d\n" % (1 << 60)),
        (b"18446744073709551616", "ok", b"0\n"),
        (b"18446744073709559808", "ok", b"8192\n"),
        (b"0x10000000000002000", "ok", b"8192\n"),
        (b"0x10k", "ok", b"16384\n"),
        (b"010m", "ok", b"8388608\n"),
    ]
    rows += [
        (b"4kk", "EINVAL", None),
        (b"k4", "EINVAL", None),
        (b"4x", "EINVAL", None),
        (b"maxk", "EINVAL", None),
        (b"-4k", "EINVAL", None),
    ]
    rows += [
        (b"0", "ok", b"0\n"),
        (b"4095", "ok", b"0\n"),
        (b"4096", "ok", b"4096\n"),
        (b"8191", "ok", b"4096\n"),
        (b"k", "ok", b"0\n"),
    ]
    for name in ("memory.max", "memory.high", "memory.low", "memory.min", "memory.swap.max", "memory.swap.high"):
        tries(v, name, rows)
    rows = [(text, "ok" if n < 2 else "EINVAL", b"%d\n" % n if n < 2 else None) for text, n in NUMBERS]
    rows += [(text, "EINVAL", None) for text in (*NO_NUMBERS, b"2", b"-1", b"%d" % INT, b"%d" % (-INT - 1))]
    rows += [(text, "ERANGE", None) for text in (*BEYOND, b"%d" % (INT + 1), b"%d" % (-INT - 2))]
    rows += [*padded(b"1", b"1\n"), *sized(b"0", b"0\n"), *sized(b"1", b"1\n")]
    tries(v, "memory.oom.group", [row for row in rows if b"max" not in row[0]])


def cpu(v):
    for nice, shares in enumerate(SHARES, -20):
        write(v + "/cpu.weight.nice", b"%d" % nice)
        got = int(read(v + "/cpu.weight")), int(read(v + "/cpu.weight.nice"))
        if got != ((int(shares) * 100 + 512) // 1024, nice):
            step("nice %d" % nice, False, got)
    wrong = []
    for weight in range(1, 10001, 7):
        write(v + "/cpu.weight", b"%d" % weight)
        n = (weight * 1024 + 50) // 100
        nearest = min(range(40), key=lambda i: abs(int(SHARES[i]) - n)) - 20
        got = int(read(v + "/cpu.weight")), int(read(v + "/cpu.weight.nice"))
        if got != (weight, nearest):
            wrong.append((got, (weight, nearest)))
    same("weights, and their nice values", wrong[:5], [])
    # the kernel reads these by kstrtoull: one line feed may follow, and no blank
    for name, least, most in (("cpu.weight", 1, 10000), ("cpu.idle", 0, 1), ("cpu.weight.nice", -20, 19)):
        rows = [(b"%d\n" % n, "ok", b"%d\n" % n) for n in (least, most) if name != "cpu.idle"]
        other = "EINVAL" if name == "cpu.idle" else "ERANGE"
        rows += [
            (b"%d" % n, other if name != "cpu.weight" or n >= 0 else "EINVAL", None)
            for n in (least - 1, most + 1, -1000, 2**32 + 1)
        ]
        rows += [(b"1" + bytes([c]), "EINVAL", None) for c in BLANKS if c != 10] + [
            (b"1\n\n", "EINVAL", None),
            (b" 1", "EINVAL", None),
        ]
        rows += [(text, "EINVAL", None) for text in NO_NUMBERS if not text.startswith(b"\0")]
        tries(v, name, [row for row in rows if row[0]])
    for name, value in (
        ("cpu.weight", b"18446744073709551616"),
        ("cpu.weight", b"184467440737095516165"),
        ("cpu.weight", b"200000000000000000000"),
        ("cpu.weight", b"0x100000000000000005"),
        ("cpu.idle", b"9223372036854775808"),
        ("cpu.weight.nice", b"9223372036854775808"),
    ):
        same("%s of %r" % (name, value), put(v, name, value), "ERANGE")
    write(v + "/cpu.weight", b"300")
    write(v + "/cpu.idle", b"0")
    same("a group that is not idle keeps its weight", read(v + "/cpu.weight"), b"300\n")
    write(v + "/cpu.idle", b"1")
    write(v + "/cpu.idle", b"1")
    same("idle twice", (read(v + "/cpu.idle"), read(v + "/cpu.weight")), (b"1\n", b"0\n"))
    write(v + "/cpu.idle", b"0")
    greatest = 2**44 - 1
    tries(
        v,
        "cpu.max",
        [
            (b"1000", "ok", b"1000 100000\n"),
            (b"1000 1000", "ok", b"1000 1000\n"),
            (b"999 1000", "EINVAL", None),
            (b"1000 1000000", "ok", b"1000 1000000\n"),
            (b"1000 1000001", "EINVAL", None),
            (b"2000 x", "ok", b"2000 1000000\n"),
            (b"\t3000\n50000\n", "ok", b"3000 50000\n"),
            (b"max 20000 junk", "ok", b"max 20000\n"),
            (b"maxx", "EINVAL", None),
            (b"max 999", "EINVAL", None),
            (b"%d" % greatest, "ok", b"%d 20000\n" % greatest),
            (b"%d" % (greatest + 1), "EINVAL", None),
            (b"18446744073709551615", "EINVAL", None),
            (b"0", "EINVAL", None),
            (b"0 50000", "EINVAL", None),
            (b"5000 0", "EINVAL", None),
            (b"0x2000", "EINVAL", None),
            (b"4000 100000", "ok", b"4000 100000\n"),
            # the kernel takes twenty bytes for the quota, and what follows for the period
            (b"00000000000000009000 50000", "ok", b"9000 50000\n"),
            (b"0000000000000000900012345", "ok", b"9000 12345\n"),
            (b"000000000000000090001", "EINVAL", None),
            (b"4000 0000000000000000000100000", "ok", b"4000 100000\n"),
            (b"4000 100000x", "ok", b"4000 100000\n"),
            (b"4000x", "ok", b"4000 100000\n"),
            (b"max100000", "EINVAL", None),
            (b"4000,100000", "ok", b"4000 100000\n"),
        ],
    )
    tries(
        v,
        "cpu.max.burst",
        [
            (b"4000", "ok", b"4000\n"),
            (b"4001", "EINVAL", None),
            (b"0x10", "ok", b"16\n"),
            (b"1 ", "EINVAL", None),
            (b"18446744073709551616", "ERANGE", None),
            (b"18446744073709551615", "EINVAL", None),
            (b"1", "ok", b"1\n"),
        ],
    )
    same("a quota that is the greatest with a burst", put(v, "cpu.max", b"%d" % greatest), "EINVAL")
    same("one less", put(v, "cpu.max", b"%d" % (greatest - 1)), "ok")
    write(v + "/cpu.max", b"max 100000")
    most = (2**64 - 1) // 1000  # of nanoseconds in 64 bits
    tries(
        v,
        "cpu.max.burst",
        [
            (b"1000000000000", "ok", b"1000000000000\n"),
            (b"%d" % most, "ok", b"%d\n" % most),
            (b"%d" % (most + 1), "EINVAL", None),
            (b"0", "ok", b"0\n"),
        ],
    )


def io(v):
    tries(
        v,
        "io.weight",
        [
            (b"1", "ok", b"default 1\n"),
            (b"10000", "ok", b"default 10000\n"),
            (b"10001", "EINVAL", None),
            (b"0", "EINVAL", None),
            (b"default 1", "ok", b"default 1\n"),
            (b"default   77\n", "ok", b"default 77\n"),
            (b"default 0", "EINVAL", None),
            (b"default 10001", "EINVAL", None),
            (b"defaul 5", "EINVAL", None),
            (b"default", "EINVAL", None),
            (b"-1", "EINVAL", None),
            (b"4095:1 50", "ENODEV", None),
            (b"4095: 50", "EINVAL", None),
            (b":1 50", "EINVAL", None),
            (b"4095:1", "EINVAL", None),
            (b"1:x 50", "EINVAL", None),
            (b"x:1 50", "EINVAL", None),
        ],
    )


def lists(v):
    for name in ("cpuset.cpus", "cpuset.mems"):
        rows = [*padded(b"0", b"0\n"), *sized(b"0", b"0\n")]
        # here a blank separates
        tries(v, name, [row for row in rows if row[0] not in (b"\0000",)])
        tries(
            v, name, [(b"0%c0" % c, "ok", b"0\n") for c in BLANKS] + [(b"0%c0" % c, "EINVAL", None) for c in NO_BLANKS]
        )
        tries(
            v,
            name,
            [
                (b"0,0", "ok", b"0\n"),
                (b",0,", "ok", b"0\n"),
                (b"0 0\t0\n0", "ok", b"0\n"),
                (b"0-0", "ok", b"0\n"),
                (b"0-0:1/1", "ok", b"0\n"),
                (b"0-0:1/9", "ok", b"0\n"),
                (b"0-0:0/1", "ok", b"\n"),
                (b"all:1/1024", "ok", b"0\n"),
                (b"0-0:1/0", "EINVAL", None),
                (b"0-0:2/1", "EINVAL", None),
                (b"0-0:1", "EINVAL", None),
                (b"0-0:1/", "EINVAL", None),
                (b"0-0:/1", "EINVAL", None),
                (b"0--0", "EINVAL", None),
                (b"0-0-0", "EINVAL", None),
                (b"0x0", "EINVAL", None),
                (b"+0", "EINVAL", None),
                (b"alll", "EINVAL", None),
                (b"al", "EINVAL", None),
                (b"n", "EINVAL", None),
                (b"0;0", "EINVAL", None),
                (b"4294967294", "ERANGE", None),
                (b"0-4294967294", "ERANGE", None),
                (b"4294967295", "EINVAL", None),
                (b"0-4294967295", "EINVAL", None),
                (b"4294967296", "EOVERFLOW", None),
                (b"0-4294967296", "EOVERFLOW", None),
                (b"42949672960", "EOVERFLOW", None),
                (b"0-42949672960", "EOVERFLOW", None),
                (b"50000000000", "EOVERFLOW", None),
            ],
        )
    tries(
        v,
        "cpuset.cpus.partition",
        [
            (b" root\n\n", "ok", b"root invalid (cpuset.cpus and cpuset.cpus.exclusive are empty)\n"),
            (b"\tisolated", "ok", b"isolated invalid (cpuset.cpus and cpuset.cpus.exclusive are empty)\n"),
            (b"member".rjust(4096), "ok", b"member\n"),
            (b"member".rjust(4097), "E2BIG", None),
            (b"Member", "EINVAL", None),
            (b"memberx", "EINVAL", None),
            (b"roo", "EINVAL", None),
            (b"root x", "EINVAL", None),
        ]
        if not write(v + "/cpuset.cpus", b"\n")
        else [],
    )


def several(m):
    """Lists of four processors, and what is left of them from group to group."""
    if not read("/sys/devices/system/cpu/possible").startswith((b"0-3\n", b"0-4", b"0-5", b"0-6", b"0-7")):
        step("this machine does not have four to some eighty processors: their lists are left out", True)
        return
    top = m.path("v")
    tries(
        top,
        "cpuset.cpus",
        [
            (b"0,2-3", "ok", b"0,2-3\n"),
            (b"3,1,2", "ok", b"1-3\n"),
            (b"0-1 3", "ok", b"0-1,3\n"),
            (b"0-2,1-3", "ok", b"0-3\n"),
            (b"0-1,2-3", "ok", b"0-3\n"),
            (b"0,2", "ok", b"0,2\n"),
            (b"0-3:1/2", "ok", b"0,2\n"),
            (b"1-3:1/2", "ok", b"1,3\n"),
            (b"0-3:2/3", "ok", b"0-1,3\n"),
            (b"0-3:3/4", "ok", b"0-2\n"),
            (b"0-3:4/4", "ok", b"0-3\n"),
            (b"0-3:1/4,3", "ok", b"0,3\n"),
            (b"3-1", "EINVAL", None),
            (b"0-1:2", "EINVAL", None),
        ],
    )
    online = read(m.path("cpuset.cpus.effective"))
    if not online.startswith((b"0-3\n", b"0-4", b"0-5", b"0-6", b"0-7")):
        step("four of them are not online: what is left of them is left out", True)
        return
    write(top + "/cpuset.cpus", b"\n")
    at = top
    for name in "xyz":
        write(at + "/cgroup.subtree_control", b"+cpuset")
        at += "/" + name
        os.mkdir(at)
    groups = [top, top + "/x", top + "/x/y", top + "/x/y/z"]
    for lists_of, effective in (
        (("", "", "", ""), (online,) * 4),
        (("1-3", "", "", ""), (b"1-3\n",) * 4),
        (("1-3", "2", "", ""), (b"1-3\n", b"2\n", b"2\n", b"2\n")),
        (("1-3", "0,2-3", "1-2", ""), (b"1-3\n", b"2-3\n", b"2\n", b"2\n")),
        (("1-3", "0", "1", "2"), (b"1-3\n", b"1-3\n", b"1\n", b"1\n")),
        (("0-1", "", "1-3", "0"), (b"0-1\n", b"0-1\n", b"1\n", b"1\n")),
        (("3", "0-2", "0-3", "1,3"), (b"3\n",) * 4),
    ):
        for group, value in zip(groups, lists_of):
            write(group + "/cpuset.cpus", value.encode() + b"\n")
        got = tuple(read(group + "/cpuset.cpus.effective") for group in groups)
        same("what is left of %s" % (lists_of,), got, effective)
    for group in groups:
        write(group + "/cpuset.mems", b"0\n")
    same("nodes are another list", {read(group + "/cpuset.mems.effective") for group in groups[1:]}, {b"0\n"})
    same(
        "which no list of processors changes",
        [read(group + "/cpuset.cpus.effective") for group in groups],
        [b"3\n"] * 4,
    )


def numbers_of_control(m):
    """Numbers that are written to the control directory are decimal, with any blanks between them."""
    for value, error in (
        (b"1\t2", "ok"),
        (b"\v1\f\r3 \xa0", "ok"),
        (b"1 4\0 5", "ok"),
        (b"0000000000000000000000001 05", "ok"),
        (b"1 0x9", "EINVAL"),
        (b"1 184467440737095516169", "EINVAL"),
        (b"1 +9", "EINVAL"),
        (b"1\x019", "EINVAL"),
        (b"1", "EINVAL"),
        (b"1 9 9", "EINVAL"),
    ):
        same("fork of %r" % value, put(m.path(".makhloeum"), "fork", value), error)
    same("who was forked", read(m.path("cgroup.procs")), b"1\n2\n3\n4\n5\n")


ON_BOTH = (limits, switches, processes, words)
if sys.argv[1:] == ["kernel"]:
    with new_group() as group:
        for test in ON_BOTH if group else ():
            os.mkdir(group + "/b")
            test(group + "/b")
            os.rmdir(group + "/b")
else:
    m = Mount("--extra")
    for i, test in enumerate(ON_BOTH[:3]):
        os.mkdir(m.path("b%d" % i))
        test(m.path("b%d" % i))
    pids(m)
    m.end()
    m = Mount("--keep", "memory,cpu,io,cpuset")
    write(m.path("cgroup.subtree_control"), b"+memory +cpu +io +cpuset +pids\n")
    os.mkdir(m.path("v"))
    for test in (limits, switches, processes, memory, cpu, io, lists):
        test(m.path("v"))
    words(m.path("v"), "EOPNOTSUPP")
    several(m)
    numbers_of_control(m)
    m.end()
finish()
