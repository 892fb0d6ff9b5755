/* A file of --trace or --answers: each text is added at its end, completely or not at all. */
#ifndef TRACE_FILE_H
#define TRACE_FILE_H

#include <pthread.h>
#include <stdbool.h>
#include <stddef.h>
#include <sys/stat.h>

struct trace_file {
	/* The server owns it, and uses it with the engine's lock. */
	int fd; /* -1: nothing is kept */
	/* As it was opened: its kind and its inode number. */
	struct stat is;
	off_t size; /* of a regular file, how much of it counts: the rest is a part that a full device left */
	bool has_rest; /* there is such a rest */
	bool was_made; /* the file did not exist before */
	int broken; /* of another file, the errno after which it ends within a text */
	/* The text of the command line. */
	const char *name;
	bool was_told; /* that it is too long for cgreplay: `teller` says so, or has said it */
	pthread_t teller;
};

/* Opens without changing the content. A regular file (made with mode 0600) or a character device; false after an error
   message. Without a name nothing is kept. */
bool trace_file_open(struct trace_file *file, const char *name);
bool trace_file_is_same(const struct trace_file *a, const struct trace_file *b);
/* Empties it, before the first text. */
bool trace_file_begin(struct trace_file *file);
/* Removes it if trace_file_open made it. The process is about to end. */
void trace_file_abandon(struct trace_file *file);
/* 0 or -errno: then nothing was added, and the next try may succeed. It waits for the device. Where nothing is kept it does nothing. */
int trace_file_add(struct trace_file *file, const char *bytes, size_t size);
/* Removes what was added since it had this size. */
void trace_file_take_back(struct trace_file *file, off_t size);
/* Says, once, that it is too long for cgreplay, in a thread of its own: standard error may be a pipe that nobody reads, and the caller
   has the engine's lock. False if that was said before, or if there is no thread for it. */
bool trace_file_tell_long(struct trace_file *file);
/* A sentence that nobody has read a second later is lost. */
void trace_file_close(struct trace_file *file);

#endif
