/* What the supervisor asks the server, by a socket.

   The folder channels: the sockets and the shared memory between the processes of a run.
   Who runs it: the supervisor, the server and the helper. Each function says on which side it is called.
   What is in shared memory is read and written with atomic operations, and without a lock: a process that the program has stopped or
   killed must keep no other one waiting. The server's side takes only messages that are there already, and whoever calls it has the
   engine's lock. The helper may wait until the server takes a table. The supervisor waits for the server, and there is no function
   here for that: see supervisor/link.h.
   It may not touch the engine, any path and the program's memory. It uses only the folder common. */
#ifndef QUESTIONS_H
#define QUESTIONS_H

#include "common/group_paths.h"
#include <stdbool.h>
#include <stddef.h>
#include <sys/types.h>

/* EVENTS has no reply. All others wait for theirs, CATCH_UP for nothing else: before it answers, the server takes the events. */
enum what { RESERVE, BORN, CANCEL, STOPPED, ORDER, PREPARE, NAMESPACE, CATCH_UP, EVENTS };

/* May the parent make a child, or a thread? In its group, or in the one that is named. */
/* An answer that allows it carries a reservation. It counts against the limits until BORN or
   CANCEL names it. */
struct reserve_question {
	pid_t parent;
	bool is_thread;
};

/* The child exists and has not run. The answer says whether it may run, and whether it stays at
   its first stop. */
struct born_question {
	unsigned reservation;
	pid_t child;
};

/* The call has made no child. */
struct cancel_question {
	unsigned reservation;
};

/* Whether all threads of a frozen process rest. */
struct stopped_question {
	pid_t process;
	bool stopped;
};

/* A call of this process is about to make a cgroup namespace, which begins at its group, or at the one that is named. */
struct prepare_question {
	unsigned call;
	pid_t process;
};

/* The call has made this one; 0: none. */
struct namespace_question {
	unsigned call, space;
};

/* Only the beginning of a question is sent, up to the end of its text. */
struct question {
	/* Which member of the union it has. */
	enum what what;
	union {
		struct reserve_question reserve;
		struct born_question born;
		struct cancel_question cancel;
		struct stopped_question stopped;
		struct prepare_question prepare;
		struct namespace_question made;
	};
	/* Of RESERVE and PREPARE: whether `group` is meant. Else the process's own group is. */
	bool names_group;
	char group[PATH_MAX_SAID];
};

enum { WITHOUT_TEXT = offsetof(struct question, group) + 1 };

/* Which member it has follows from the question, since only one question is under way. */
struct reply {
	int fault; /* 0 or -errno */
	union {
		unsigned reservation; /* of RESERVE */
		bool is_frozen; /* of BORN */
		struct {
			pid_t process; /* 0: there is none */
			bool stops;
		} order;
	};
};

#endif
