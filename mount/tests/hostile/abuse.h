/* Shared by abuse.c and meddle.c: each names its ways in a table, and follows one of them until it is killed. */
#ifndef ABUSE_H
#define ABUSE_H

#include <errno.h>
#include <fcntl.h>
#include <linux/sched.h>
#include <signal.h>
#include <stddef.h>
#include <stdio.h>
#include <stdlib.h>
#include <string.h>
#include <sys/stat.h>
#include <sys/syscall.h>
#include <sys/wait.h>
#include <unistd.h>

struct way {
	const char *name;
	void (*work)(void);
};

static inline unsigned dice(unsigned below)
{
	static unsigned state;
	static pid_t of;
	if (of != getpid()) {
		of = getpid();
		state = (unsigned)of * 2654435761U + 1;
	}
	state = state * 1664525U + 1013904223U;
	return (state >> 8) % below;
}

static inline void reap(void)
{
	while (waitpid(-1, NULL, WNOHANG | __WALL) > 0)
		;
}

static inline void fork_once(void)
{
	pid_t pid = fork();
	if (pid == 0)
		_exit(0);
	waitpid(pid, NULL, 0);
}

/* A child that works until it is killed. */
static inline pid_t begin(void (*work)(void))
{
	pid_t pid = fork();
	if (pid)
		return pid;
	for (;;)
		work();
}

static inline int go_on(const char *what, const struct way *ways, size_t count)
{
	for (size_t i = 0; i < count; i++)
		if (strcmp(what, ways[i].name) == 0)
			for (;;)
				ways[i].work();
	return 2;
}

#endif
