/* Waiting for a change. Every call that changes the hierarchy raises the number of changes and wakes those that wait.
 *
 * A wait is the only call in which a thread can be cancelled. A thread that is cancelled there has the lock of its engine, and gives
 * it back (give_back). */
#include "lines.h"
#include <errno.h>
#include <stdlib.h>
#include <string.h>
#include <time.h>

static struct timespec after(uint32_t milliseconds)
{
	struct timespec at;
	clock_gettime(CLOCK_MONOTONIC, &at);
	at.tv_sec += milliseconds / 1000;
	at.tv_nsec += (long)(milliseconds % 1000) * 1000000;
	if (at.tv_nsec >= 1000000000) {
		at.tv_nsec -= 1000000000;
		at.tv_sec++;
	}
	return at;
}

PUBLIC uint32_t mk_changes(mk_handle *h, uint64_t *changes)
{
	mk0_handle *engine;
	uint64_t found = 0;
	uint32_t status = enter(h, &engine);
	if (status == MK_DONE) {
		found = slot_of(engine)->changes;
		leave(engine);
	}
	*changes = found;
	return status;
}

/* A wait of a call that is in the engine of the slot. */
struct wait {
	struct slot *slot;
	uint64_t serial;
	uint32_t milliseconds;
	struct timespec end;
};

static struct wait begin_wait(struct slot *slot, uint32_t milliseconds)
{
	return (
		struct wait){ .slot = slot, .serial = slot->serial, .milliseconds = milliseconds, .end = after(milliseconds) };
}

static void give_back(void *slot)
{
	leave_closed(slot);
}

/* Waits until the number of changes is not `seen`. MK_DONE, MK_TIMED_OUT, or MK_CLOSED if the slot has another engine now, or none. */
static uint32_t wait_for_change(const struct wait *it, uint64_t seen)
{
	struct slot *slot = it->slot;
	int late = 0;
	while (slot->serial == it->serial && slot->changes == seen && late == 0)
		late = it->milliseconds == MK_FOREVER ? pthread_cond_wait(&slot->changed, &slot->lock)
											  : pthread_cond_timedwait(&slot->changed, &slot->lock, &it->end);
	if (slot->serial != it->serial)
		return MK_CLOSED;
	return slot->changes == seen ? MK_TIMED_OUT : MK_DONE;
}

PUBLIC uint32_t mk_wait(mk_handle *h, uint64_t seen, uint32_t milliseconds, uint64_t *changes)
{
	mk0_handle *engine;
	*changes = 0;
	uint32_t status = enter(h, &engine);
	if (status != MK_DONE)
		return status;
	struct slot *slot = slot_of(engine);
	struct wait wait = begin_wait(slot, milliseconds);
	pthread_cleanup_push(give_back, slot);
	status = wait_for_change(&wait, seen);
	if (status != MK_CLOSED)
		*changes = slot->changes;
	pthread_cleanup_pop(1);
	return status;
}

/* ---- a file */

/* The text of the file, in answer->bytes, whose memory the caller frees. A wait is often repeated, by callers that look for something
   else in between, so the faults that a test asked for don't count it. */
static uint32_t look(mk0_handle *engine, const struct line *line, struct answer *answer, mk0_info *told)
{
	struct slot *slot = slot_of(engine);
	struct fault *faults = slot->faults;
	slot->faults = NULL;
	uint32_t status = ask_long(engine, line, NULL, 0, answer, told);
	slot->faults = faults;
	told->len = status == MK_DONE ? take_text(answer->bytes, told->len, answer->bytes) : 0;
	return status;
}

/* Copies a text to the caller, if there is room. */
static uint32_t give(const struct answer *answer, const struct buffer *text, mk0_info *told)
{
	size_t len = told->len;
	if (len + 1 > text->size) {
		*told = (mk0_info){ .needed = len + 1 };
		return MK_TOO_SMALL;
	}
	memcpy(text->at, answer->bytes, len);
	text->at[len] = 0;
	return MK_DONE;
}

/* `seen` and text may be the same: nothing is written there before the file differs. */
static uint32_t wait_for_text(mk0_handle *engine, const struct line *line, const char *seen, const struct wait *wait,
	const struct buffer *text, mk0_info *told)
{
	size_t seen_len = strlen(seen);
	for (;;) {
		struct answer answer;
		uint64_t changes = slot_of(engine)->changes;
		uint32_t status = look(engine, line, &answer, told);
		bool is_seen = status == MK_DONE && told->len == seen_len && memcmp(answer.bytes, seen, seen_len) == 0;
		if (status == MK_DONE && !is_seen)
			status = give(&answer, text, told);
		free(answer.memory);
		if (!is_seen)
			return status;
		*told = (mk0_info){ 0 };
		status = wait_for_change(wait, changes);
		if (status != MK_DONE)
			return status;
	}
}

PUBLIC uint32_t mk_wait_file(mk_handle *h, const char *path, const char *file, const char *seen, uint32_t milliseconds,
	char *text, size_t size, mk_info *info)
{
	mk0_handle *engine;
	mk0_info told = { 0 };
	struct line line;
	begin_line(&line, "cat", path);
	add_word(&line, file);
	uint32_t status = enter(h, &engine);
	if (status != MK_DONE)
		return tell(info, status, &told);
	struct wait wait = begin_wait(slot_of(engine), milliseconds);
	struct buffer buffer = { text, size };
	pthread_cleanup_push(give_back, wait.slot);
	status = wait_for_text(engine, &line, seen, &wait, &buffer, &told);
	pthread_cleanup_pop(true);
	return tell(info, status, &told);
}
