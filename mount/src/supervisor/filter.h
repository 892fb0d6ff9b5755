/* Which system calls of a program its supervisor sees: a seccomp filter. */
#ifndef FILTER_H
#define FILTER_H

#include <stdbool.h>
#include <stdint.h>

/* What the tracer is told at a stop of this filter. A filter of the program that sends a call to a tracer tells something
   else, and is asked before this one. */
enum { FILTER_MARK = 0x4d6b };

/* Called in the program, before it is executed. Returns the descriptor that reports opens and statfs, or -1. Calls that
   make a process or a thread stop for the tracer; so do calls that add a filter or ask for strict mode, that may change a root or its mounts, or
   that look whether a child has ended. */
int filter_install(void);
/* Whether this filter stops such a call. A filter of the program can send any call to a tracer, and with the same mark. */
bool filter_stops(long call, const uint64_t args[6]);

/* At the stop before prctl or seccomp: whether the call adds a filter, which its third argument points to. */
bool filter_is_added(long call, const uint64_t args[6]);

/* The strict mode of seccomp. The kernel refuses it to a thread that has a filter, and under `run` each has one. So the
   supervisor looks at each call of a thread that has asked for this mode. A thread that has another filter does not get it. */
/* At the stop before prctl or seccomp: 0 if the call asks for this mode, -errno if the kernel refuses that for its arguments, and
   1 if it asks for something else. */
int filter_wants_strict(long call, const uint64_t args[6]);
/* The result of a call that asks for this mode, of a thread with so many filters; -1: it is not known. */
int filter_strict_result(long filters);
/* At the stop before a call: whether this mode allows it. Another ends the process. */
bool filter_strict_allows(long call);

#endif
