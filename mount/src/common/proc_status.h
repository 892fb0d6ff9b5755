/* Files of /proc, which is the current directory, read without allocating memory: so no lack of it changes what they say. */
#ifndef PROC_STATUS_H
#define PROC_STATUS_H

#include <stdbool.h>
#include <stddef.h>
#include <sys/types.h>

/* False if /proc is that of another PID namespace than this process's, where numbers are those of others. True without /proc. */
bool proc_status_is_ours(void);
/* Makes /proc the working directory of this process. With --root the program may mount something over /proc, so it is a copy of
   the mount, which no other process has. */
bool proc_status_enter(void);
/* What follows a key in PID/status; false if there is no such line or no such process. The key
   ends in a colon. */
bool proc_status_line(pid_t pid, const char *key, char *out, size_t size);
/* The last number there; -1 likewise. */
long proc_status_number(pid_t pid, const char *key);
/* The beginning of a file, as a text: its length, or -errno. */
ssize_t proc_status_text(const char *path, char *out, size_t size);

#endif
