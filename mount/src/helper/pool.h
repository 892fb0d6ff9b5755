/* The threads of the helper: one pool for all calls that the program can keep waiting.

   A source is where calls come from. One thread receives from each and answers what it has received, since to wake another one costs the
   caller time. One more thread watches them: if one is at the same call for a whole look, as when the program keeps it waiting, the one
   that watches receives in its place, and another one watches. So at rest there is a thread for each source and one that watches, and
   more only while as many are kept waiting. If no thread can be made, a call that nobody would watch is declined after a while: the
   program may keep all others waiting, and must not block other programs. */
#ifndef POOL_H
#define POOL_H

#include "helper/helper.h"
#include <linux/seccomp.h>
#include <stdbool.h>
#include <stddef.h>
#include <sys/types.h>

/* What the supervisor asks about a thread (helper/helper.h). */
struct helper_question {
	enum helper_subject about;
	/* Which of them has a meaning depends on `about`. Addresses are the program's. */
	unsigned long ticket, at, stack;
	size_t size;
	pid_t thread;
};

/* Which member it has follows from the source. Each thread has one of its own. */
union pool_call {
	struct helper_question question;
	struct seccomp_notif notification;
};

struct pool_source {
	int fd;
	/* Waits for the next call; one thread at a time. False: there will be none. */
	bool (*receive)(int fd, union pool_call *call);
	/* Both are called without a lock. The first one may wait for the program, the second may not. */
	void (*answer)(int fd, const union pool_call *call);
	void (*decline)(int fd, const union pool_call *call);
	/* The rest is the pool's own, with its lock. */
	unsigned turn, seen; /* which call it is; which it was at the last look */
	bool is_busy; /* the thread that receives is at a call */
	bool stalled; /* a call was declined, and none has been answered since then */
	int kept; /* threads at calls in whose place others receive */
};

enum { POOL_SOURCES = 2 };

/* Makes the threads that there are at rest, except this one. 0 or an errno */
int pool_begin(struct pool_source sources[POOL_SOURCES]);
/* This thread, the first of the process, receives from the first source. */
_Noreturn void pool_work(void);

#endif
