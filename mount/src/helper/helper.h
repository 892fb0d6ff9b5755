/* A second process for everything that the program can block: its memory, its paths and its file systems. The supervisor
   sends requests and receives the answers that have come; it never waits.

   The folder helper: the answers to opens, to `statfs` and mounts of the program, and the arguments of a `clone3`.
   Who runs it: the threads of the helper. Only what helper.h declares runs in the supervisor.
   They may block on the program, at each look-up, read and call: a thread that the program keeps waiting answers nobody else, so another
   one takes its place (helper/pool.h), and what was asked can be given up. No function holds a lock meanwhile.
   It may not touch the engine: it reads what the hierarchy has through the mount, by a descriptor of its root that the program can't
   cover. What it decides by is its own copy of the arguments, and never memory that the program can still change. */
#ifndef HELPER_H
#define HELPER_H

#include "common/group_paths.h"
#include <linux/sched.h>
#include <stdbool.h>
#include <stddef.h>
#include <sys/types.h>

/* The upper half of the sixth argument, which `clone` does not have, of one that the supervisor makes of a `clone3`. */
enum { WAS_CLONE3 = 0x4d6b6333 };

/* What a clone3 asks for; how many filters of seccomp a thread has; a filter that a thread adds. */
enum helper_subject { CLONE3_ARGUMENTS, FILTER_COUNT, NEW_FILTER };

/* Only the beginning is sent, up to the end of the path. */
struct helper_reply {
	enum helper_subject about;
	/* Of CLONE3_ARGUMENTS: by which the supervisor knows the birth. */
	unsigned long ticket;
	/* Whom the question was about. */
	pid_t thread;
	long filters; /* -1: the kernel does not say */
	unsigned long copy; /* where the filter is that the thread has to add in place of its own; 0: its own */
	int fault; /* 0, or the -errno of the call: its arguments cannot be read */
	struct clone_args args;
	int group_fault; /* with CLONE_INTO_CGROUP: 0 and the group, or -errno */
	char group[PATH_MAX_SAID];
};

/* Starts it, before the program runs. It answers the notifications of `listener`. Returns its descriptor to poll, or -1 with
   errno. */
int helper_start(int listener, pid_t program);
/* Nobody waits for it: a file system of the program may block it. */
void helper_end(void);
/* Requests the arguments of a clone3, by a ticket. False if too many are being read. */
bool helper_read(unsigned long ticket, pid_t thread, unsigned long at, size_t size);
/* Requests how many filters a thread has. False as above. */
bool helper_count_filters(pid_t thread);
/* Requests a copy of a filter that allows what was a clone3 (helper/program_filter.h). False as above. */
bool helper_copy_filter(pid_t thread, unsigned long at, unsigned long stack);
bool helper_take(struct helper_reply *reply);

#endif
