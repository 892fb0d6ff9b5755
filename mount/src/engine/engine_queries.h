/* The calls of the engine that answer without a line (engine.h declares them), and the buffers of answers: what engine.c and
   engine_queries.c share. */
#ifndef ENGINE_QUERIES_H
#define ENGINE_QUERIES_H

#include <makhloeum.h>
#include <stdbool.h>
#include <stddef.h>

/* Bytes whose room grows. */
struct buffer {
	char *at; /* owned by whoever has the structure, who frees it; NULL before the first call */
	size_t size; /* bytes in use: written and read by the owner alone */
	size_t room; /* bytes that are allocated */
};

/* Makes room for at least this many bytes, and keeps those that are there. `at` may change. False if out of memory: then nothing has
   changed. */
bool buffer_make_room(struct buffer *b, size_t room);
/* Makes the buffers of their answers; false if out of memory. One thread, before the mount. */
bool engine_queries_start(void);
void engine_queries_end(void);
/* The engine, until engine_end. It requires the lock. */
mk_handle *engine_handle(void);

#endif
