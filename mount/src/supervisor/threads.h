/* The threads that the supervisor traces. */
#ifndef THREADS_H
#define THREADS_H

#include <stdbool.h>
#include <stddef.h>
#include <sys/types.h>

struct birth;

/* Why a thread does not run: kept at a stop of its whole process or after a vfork, or before a
   call; stopped by a signal; waiting for the child that it made by vfork. All but RUNS count for
   `resting` of the first thread. */
enum rest { RUNS, PARKED, BEFORE_CALL, LISTENS, VFORKS };

struct thread {
	struct thread *next, *before;
	/* Numbers of the supervisor's PID namespace. They are equal for the first thread of a process. */
	pid_t id, process;
	bool started; /* it has left its first stop */
	bool counted; /* a process or thread that the hierarchy knows */
	struct birth *makes; /* the call by which it is making a child */
	struct birth *made_by; /* until it has left its first stop */
	bool frozen; /* it stays at its next stop */
	bool unshares; /* it asks for a cgroup namespace */
	bool asks_strict; /* for the strict mode of seccomp, and waits for the answer */
	bool strict; /* it has entered that mode */
	bool asks_filter; /* it waits for the copy of a filter that it is about to add */
	bool adds_filter; /* it is in the call that adds the copy */
	unsigned long filter_at; /* where its own is */
	bool was_stopped; /* a signal has stopped it, and no SIGCONT was delivered since */
	int stopped_by; /* at rest LISTENS: that signal */
	enum rest rest;
	/* of the first thread of a process: how many threads there are, how many of them rest, and whether the server knows
	   that all do */
	unsigned members, resting;
	bool told, undecided; /* undecided: all rest but the first, which may be ending */
};

/* NULL if there is none. */
struct thread *threads_find(pid_t id);
/* NULL if out of memory, or if the number is out of range. */
struct thread *threads_add(pid_t id, pid_t process);
void threads_drop(struct thread *t);
size_t threads_count(void);
/* The first of all; `next` leads to the others. */
struct thread *threads_all(void);
void threads_kill_all(void);

#endif
