#include "engine/engine_queries.h"
#include "common/growing_array.h"
#include "engine/engine.h"
#include <errno.h>
#include <stdint.h>
#include <stdio.h>
#include <stdlib.h>
#include <string.h>

enum { FIRST_ROOM = 16384 };

/* An answer that grows by one line at a time is copied seldom, since the room is doubled. */
bool buffer_make_room(struct buffer *b, size_t room)
{
	char *at = growing_array_make_room(b->at, room, &b->room, sizeof *at);
	if (at)
		b->at = at;
	return at != NULL;
}

/* One for each kind of answer: a caller may use the names of a group's children while it asks for paths. */
static struct buffer names, paths, past;

/* MK_CHILDREN_MAX is what the names below any group need: engine_children never runs out of room. */
bool engine_queries_start(void)
{
	return buffer_make_room(&paths, FIRST_ROOM) && buffer_make_room(&past, FIRST_ROOM) &&
		buffer_make_room(&names, MK_CHILDREN_MAX);
}

void engine_queries_end(void)
{
	free(names.at);
	free(paths.at);
	free(past.at);
}

/* The line is asked like any other, since the engine has no call for it. A group's path with its
   zero byte has to fit. */
int engine_where(long pid, char *group, size_t size)
{
	size_t n;
	int fault = engine_look("where %ld", pid);
	if (fault)
		return fault == -ENOMEM ? fault : -ESRCH; /* a number beyond all pids is no process either */
	const char *said = engine_text(&n); /* 0::GROUP and a line feed */
	snprintf(group, size, "%.*s", (int)n - 4, said + 3);
	return 0;
}

/* Of a call that names a group and has a buffer of sufficient size. The engine names no reason but
   that there is no such group, or no memory. */
static int fault_of(uint32_t status)
{
	switch (status) {
	case MK_DONE:
		return 0;
	case MK_REFUSED:
	case MK_FAULT:
		return -ENOENT;
	default:
		return -ENOMEM;
	}
}

/* No buffer: the answer is the status alone. */
int engine_has_group(const char *path)
{
	mk_info info;
	WANTS_LOCK();
	return fault_of(mk_has_group(engine_handle(), (const uint8_t *)path, strlen(path), &info));
}

/* The names stay until the next call of this function. */
int engine_children(const char *path, const char **found, size_t *count)
{
	mk_info info;
	WANTS_LOCK();
	uint32_t status = mk_children(engine_handle(), (const uint8_t *)path, strlen(path), (uint8_t *)names.at, names.room,
		&info);
	*found = names.at;
	*count = info.count;
	return fault_of(status);
}

/* The paths stay until the next call of this function: other calls have other buffers. */
int engine_groups(const char *top, const char **found, size_t *count)
{
	mk_info info;
	uint32_t status;
	WANTS_LOCK();
	do
		status = mk_subtree(engine_handle(), (const uint8_t *)top, strlen(top), (uint8_t *)paths.at, paths.room, &info);
	while (status == MK_TOO_SMALL && buffer_make_room(&paths, info.needed));
	*found = paths.at;
	*count = info.count;
	return fault_of(status);
}

/* mk_current and mk_limit take a path that ends in a zero byte. */
static int number_of(uint32_t (*call)(mk_handle *, const char *, uint64_t *, mk_info *), const char *group,
	uint64_t *value)
{
	mk_info info;
	return fault_of(call(engine_handle(), group, value, &info));
}

int engine_current(const char *group, uint64_t *count)
{
	WANTS_LOCK();
	return number_of(mk_current, group, count);
}

/* Without a text: the number need not be read again from one. */
int engine_limit(const char *group, uint64_t *limit)
{
	WANTS_LOCK();
	return number_of(mk_limit, group, limit);
}

/* The history has no bound, so its buffer grows with it, and keeps its size. */
int engine_history(size_t from, const char **lines, size_t *size)
{
	mk_info info;
	uint32_t status;
	WANTS_LOCK();
	do
		status = mk_history(engine_handle(), from, (uint8_t *)past.at, past.room, &info);
	while (status == MK_TOO_SMALL && buffer_make_room(&past, info.needed));
	*lines = past.at;
	*size = info.len;
	return status == MK_DONE ? 0 : -ENOMEM;
}

/* It asks no engine, so it needs no lock. */
int engine_path_fault(const char *path)
{
	size_t position;
	return -mk_path_errno(mk_path_fault((const uint8_t *)path, strlen(path), &position));
}
