"""seeds.py FOLDER: writes the inputs that each fuzz target gets first, as FOLDER/TARGET/NAME. Each target's source says how it reads
an input."""
import os
import sys

UNDO, FORGET, DEPTH, NEWEST, TRACE, FORK, EXIT = range(7)


def writes(*pairs):
    """Writes to files of the control directory, one after another."""
    return b"".join(bytes([file, len(text)]) + text for file, text in pairs)


ONE_FORK = (FORK, b"1 2")
CONTROL = {
    "exit_of_nobody": writes((EXIT, b"7"), (EXIT, b"0"), (EXIT, b"4194304")),
    "forget_then_undo": writes(ONE_FORK, (FORGET, b""), (UNDO, b"")),
    "forget_with_a_number": writes(ONE_FORK, (FORGET, b"1")),
    "fork_twice": writes(ONE_FORK, ONE_FORK, (EXIT, b"2\n"), (UNDO, b"3")),
    "fork_with_a_zero_byte": writes((FORK, b"1 2\0 3")),
    "undo_beyond_all": writes(ONE_FORK, (UNDO, b"2"), (UNDO, b"1")),
    "undo_of_a_number_beyond_64_bits": writes(ONE_FORK, (UNDO, b"18446744073709551617")),
    "undo_of_nothing": writes((UNDO, b"")),
    "undo_zero": writes(ONE_FORK, (UNDO, b"0"), (UNDO, b"")),
    "writes_to_what_is_only_read": writes((DEPTH, b"1"), (NEWEST, b""), (TRACE, b"1 2")),
}

A_PID, A_COUNT, A_PIDS_LIMIT, A_ONE, A_SWITCH = b"2", b"3", b"4", b"5", b"6"
PAGE = 4096
NUMBER = {
    "beyond_a_page": A_SWITCH + b"1".rjust(PAGE + 1),
    "count_beyond_64_bits": A_COUNT + b"18446744073709551616\n",
    "count_greatest_int": A_COUNT + b"0x7fffffff",
    "count_max": A_COUNT + b" max\n",
    "of_a_page": A_SWITCH + b"1".rjust(PAGE),
    "one_with_a_zero_byte": A_ONE + b"1\0junk",
    "pid_beyond_an_int": A_PID + b"2147483648\n",
    "pid_empty": A_PID,
    "pid_greatest": A_PID + b"4194303\n",
    "pid_minus_zero": A_PID + b"-0\n",
    "pids_max_octal": A_PIDS_LIMIT + b"020000000\n",
    "pids_max_of_a_blank_that_is_no_ascii": A_PIDS_LIMIT + b"\xa017\xa0",
    "switch_with_only_0x": A_SWITCH + b"0x",
}

NAME_OF_255 = b"/" + b"a" * 255
PATH = {
    "32_names": b"/a" * 32,
    "33_names": b"/a" * 33,
    "4095_bytes": NAME_OF_255 * 15 + b"/" + b"a" * 254,
    "4096_bytes": NAME_OF_255 * 16,
    "blank": b"/a b",
    "double_slash": b"//a",
    "empty": b"",
    "line_feed": b"/a\nb",
    "name_of_255": NAME_OF_255,
    "name_of_256": NAME_OF_255 + b"a",
    "root": b"/",
    "slash_at_the_end": b"/a/",
    "three_dots": b"/...",
    "two_dots": b"/a/..",
}

BY_NUMBER = b"B"  # of a file, not by its name
VALUES = {
    "by_number": BY_NUMBER + b"7:2 ",
    "cpu_max_of_a_period": b"cpu.max\nmax 1000\n",
    "cpu_weight_nice_least": b"cpu.weight.nice\n-20\n",
    "cpuset_cpus_all": b"cpuset.cpus\nall:1/2,N\n",
    "cpuset_cpus_of_none": b"cpuset.cpus\n\n",
    "io_max_all_max": b"io.max\n7:0 rbps=max wbps=max riops=max wiops=max\n",
    "io_max_of_a_long_word": b"io.max\n7:0 " + b"r" * 26 + b"=1\n",
    "io_max_of_one_rate": b"io.max\n7:3 wiops=4294967295 rbps=18446744073709551615\n",
    "io_max_without_a_disk": b"io.max\n7:4 rbps=2\n",
    "io_max_without_limits": b"io.max\n7:2 ",
    "io_weight_default_of_a_disk": b"io.weight\n7:1 default\n",
    "io_weight_of_a_disk": b"io.weight\n7:1 10000\n",
    "memory_high_empty": b"memory.high\n",
    "memory_low_beyond_a_page": b"memory.low\n" + b"1".rjust(PAGE + 1),
    "memory_low_of_a_page": b"memory.low\n" + b"1".rjust(PAGE),
    "memory_max_of_the_greatest": b"memory.max\n18446744073709551615E\n",
    "only_a_number": BY_NUMBER,
}

for target, seeds in (("control", CONTROL), ("number", NUMBER), ("path", PATH), ("values", VALUES)):
    os.makedirs(os.path.join(sys.argv[1], target))
    for name, text in seeds.items():
        with open(os.path.join(sys.argv[1], target, name), "wb") as it:
            it.write(text)
