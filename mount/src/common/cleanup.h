/* Descriptors and memory that end with the block in which they are declared: cleanup_fd int fd = open(..). To keep one
   longer, take it out of the variable first, with steal_fd or steal_pointer. errno stays unchanged. */
#ifndef CLEANUP_H
#define CLEANUP_H

#include <dirent.h>
#include <errno.h>
#include <stdio.h>
#include <stdlib.h>
#include <unistd.h>

/* The block may end at a failure, whose errno the caller reports: a cleanup must not replace it.
   Linux releases the descriptor even if close fails, so the result tells nothing that could be
   mended. */
static inline void close_at(const int *fd)
{
	int before = errno;
	if (*fd >= 0)
		close(*fd);
	errno = before;
}

static inline void free_at(void *pointer)
{
	int before = errno;
	free(*(void **)pointer);
	errno = before;
}

static inline void close_stream_at(FILE **stream)
{
	int before = errno;
	if (*stream)
		(void)fclose(*stream);
	errno = before;
}

static inline void close_directory_at(DIR **directory)
{
	int before = errno;
	if (*directory)
		closedir(*directory);
	errno = before;
}

#define cleanup_fd __attribute__((cleanup(close_at)))
#define cleanup_free __attribute__((cleanup(free_at)))
#define cleanup_stream __attribute__((cleanup(close_stream_at)))
#define cleanup_directory __attribute__((cleanup(close_directory_at)))

/* The variable no longer owns what it had: the caller does, and closes or frees it. */
static inline int steal_fd(int *fd)
{
	int taken = *fd;
	*fd = -1;
	return taken;
}

static inline void *steal_pointer(void *pointer)
{
	void **at = pointer, *taken = *at;
	*at = NULL;
	return taken;
}

#endif
