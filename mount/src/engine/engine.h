/* One engine behind one lock, asked line by line; and what is kept of the lines.

   The folder engine: the engine, its lock, its history, and the files of --trace and --answers.
   Who runs it: the server, with the engine's lock. The supervisor makes the engine before the server starts, and frees its own copy then.
   Who has the lock waits for writes to these two files and for nothing else. So a line is asked and kept in one step, and
   no thread waits long for the lock.
   It may not touch any path after the mount began: both files are opened before. It knows no file of a group, no process and no run. */
#ifndef ENGINE_H
#define ENGINE_H

#include "engine/trace_file.h"
#include <stdbool.h>
#include <stddef.h>
#include <stdint.h>
#include <sys/types.h>

/* Makes the engine. Each line goes to `trace` before it is asked, and its answer to `answers`: cgreplay < TRACE writes the
   same. Without `history` commands cannot be undone, and take no memory once they are answered. */
bool engine_start(struct trace_file *trace, struct trace_file *answers, bool history);
void engine_end(void);

/* All calls below want the lock, and so does all that the mount remembers beside the engine. A
   build with CHECK_LOCK ends where a function that wants it is called without it. engine_lock
   waits for the thread that has the lock, and so at most for writes to the two files, and with
   --adopt for /proc. */
void engine_lock(void);
void engine_unlock(void);
/* Whoever gets the lock first calls this, with the lock. */
void engine_lock_calls(void (*first)(void));
#ifdef CHECK_LOCK
void engine_check_lock(const char *function);
#define WANTS_LOCK() engine_check_lock(__func__)
#else
#define WANTS_LOCK() ((void)0)
#endif

/* Asks one line and keeps it. 0, or the negated errno of its refusal; or that of a device that could not keep the line or
   its answer, and then nothing has changed. */
int engine_line(const char *format, ...) __attribute__((format(printf, 1, 2)));
/* Before several lines that are one operation of the program: 0 or -ENOMEM. After them, with 0 or the fault of one: they are
   undone together from now on; or at a fault those that changed something were never there. Returns that fault. */
int engine_begin(void);
int engine_finish(int fault);
/* Asks a line that changes nothing, and keeps nothing of it. */
int engine_look(const char *format, ...) __attribute__((format(printf, 1, 2)));
/* The text that the last answer carried, without its marks: of cat and where the file's bytes, of undo the command. */
const char *engine_text(size_t *size);

/* The group of a process: 0, -ESRCH or -ENOMEM. */
int engine_where(long pid, char *group, size_t size);
/* 0, -ENOENT or -ENOMEM; so are the four below. */
int engine_has_group(const char *path);
/* The names below a group, each ended by a zero byte. */
int engine_children(const char *path, const char **names, size_t *count);
/* The paths of a group and of all below it, likewise. */
int engine_groups(const char *top, const char **paths, size_t *count);
/* How many processes are at or below a group, and its pids.max, MK_NO_LIMIT for `max`: without a text. */
int engine_current(const char *group, uint64_t *count);
int engine_limit(const char *group, uint64_t *limit);
size_t engine_depth(void);

/* Keeps the state and drops the records: nothing earlier can be undone. */
void engine_forget(void);

/* The recorded commands from a place on, oldest first, as a trace; the oldest has place 0. 0 or -ENOMEM */
int engine_history(size_t from, const char **lines, size_t *size);

/* 0 if it is a path of the trace language; else the errno of a mkdir with this fault of a path, negative. */
int engine_path_fault(const char *path);

#endif
