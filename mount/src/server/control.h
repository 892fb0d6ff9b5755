/* The control directory at the mount's root, .makhloeum: fork and exit, and with a history undo, forget, depth, newest and
   trace. Under `run` it exists only with a history: a program that could write its own exit would no longer be counted. */
#ifndef CONTROL_H
#define CONTROL_H

#include <stdbool.h>
#include <stddef.h>
#include <sys/types.h>

extern const char control_directory[]; /* its name, without a slash */

/* Whether a path is the directory or below it, or one of the files that a run has beside it. */
bool control_has(const char *path);
enum { CONTROL_ITSELF = -1 };
/* The number of the file at such a path; CONTROL_ITSELF for the directory; -ENOENT, and of a mount table -ENFILE or -ENOMEM.
   CONTROL_HIDDEN is found once. */
long control_find(const char *path);
enum { CONTROL_FILES = 7 };
enum {
	/* under `run`: the directory /.makhloeum.d, which has what follows too. The helper finds it before the program runs, and nobody
	   afterwards: so the program can't hold a lock of it, as it can one of the root, by a listing into memory that it holds back */
	CONTROL_HIDDEN = CONTROL_FILES,
	/* /.makhloeum.f, of which each open file is a mount that is being made (mount_phases.h) */
	CONTROL_CONTEXT,
	/* or the number of a process and of a cgroup namespace: /.makhloeum.PID.SPACE */
	CONTROL_WHERE
};
static const long CONTROL_TABLE =
	1L << 56; /* or the number of a mount table (mount_tables.h): /.makhloeum.t.NUMBER, under `run` */
const char *control_name(long file);
bool control_is_there(long file);
mode_t control_mode(long file);

/* Both require the engine's lock. The text of a file: 0 or -errno, with what `keep` returned. */
int control_read(long file, int (*keep)(void *, const char *, size_t), void *to);
/* 0 or -errno. */
int control_write(long file, const char *data, size_t size);

/* The numbers of a write: decimal, with blanks between, at most `most` of them. Returns how many there are, or -EINVAL. A number that
   is too large is replaced by the greatest. It needs no lock. */
int control_numbers(const char *data, size_t size, unsigned long out[], int most);

#endif
