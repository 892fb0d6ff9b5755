/* A mount, and the threads that serve it.

   The folder server: the operations of the file system, and what they show and remember of each group.
   Who runs it: the threads of the server, of which a run has one for requests and one for the supervisor's questions. A thread waits
   for its next request, for the engine's lock, and for a write to the files of --trace and --answers. Whoever holds the lock waits for
   these writes and for nothing else: it looks up no path (the helper opens mount tables, values/machine.c reads the machine before), and
   makes no request to its own mount, which only these threads answer. A look-up that a request needs comes before the lock. (With
   --adopt, where no supervisor waits for the server, the lock is held while /proc is read.) The test build checks that functions which
   need the lock have it (WANTS_LOCK).
   While the companion is busy, a thread that tells it about changes waits for it, without the lock. */
#ifndef SERVE_H
#define SERVE_H

#include <stdbool.h>

/* The options of the command line. */
struct wishes {
	const char *trace, *answers; /* files that are written from their start, or NULL */
	const char *keep; /* the controllers whose files are kept, or NULL */
	/* Of `mount` alone: adopt, foreground. Of `run` alone: as_root, users, no_threads. */
	bool extra, adopt, control, foreground, as_root, users, no_threads;
};

/* Opens the files to keep, and makes the engine. False after an error message. */
bool serve_prepare(const struct wishes *wishes);
/* Mounts on a directory, or uses a connection "/dev/fd/N" that is mounted already. Then it calls
   `ready`, and serves until an unmount or a signal ends it. Returns the status for the program.
   `ready` is called once, by a thread that has sent the first answer. */
int serve(const char *where, void (*ready)(void));
/* makhloeum mount DIR */
int mount_directory(const char *directory, const struct wishes *wishes);

#endif
