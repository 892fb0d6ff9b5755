/* How a public call reaches its engine: enter, proved calls, leave. */
#ifndef MAKHLOEUM_PRIVATE_H
#define MAKHLOEUM_PRIVATE_H

#include "makhloeum.h"
#include "proved.h"
#include <pthread.h>

/* An exported name; the libraries hide every other one. */
#define PUBLIC __attribute__((visibility("default")))

struct fault;
struct frozen;

/* The caller's memory for an answer. */
struct buffer {
	char *at;
	size_t size;
};

/* An engine with its lock. */
struct slot {
	mk0_handle engine; /* the first field: a slot is found from its engine */
	pthread_mutex_t lock;
	uint64_t serial; /* 0: closed */
	pthread_cond_t changed;
	uint64_t changes;
	size_t depth; /* at the newest change */
	struct fault *faults;
	struct frozen *frozen; /* freezer.c */
	bool must_look; /* freezer.c: a removed group may still be among them */
	struct slot *next;
	struct slot *next_free;
};

static inline struct slot *slot_of(mk0_handle *engine)
{
	return (struct slot *)engine;
}

/* MK_DONE with *engine, which no other call uses until leave; or MK_CLOSED, MK_BUSY or MK_WOULD_BLOCK, and then there is
   nothing to leave. */
uint32_t enter(const mk_handle *h, mk0_handle **engine);
void leave(mk0_handle *engine);

/* The end of a call whose engine may have been closed meanwhile: it does not look for a change. */
void leave_closed(struct slot *slot);

/* Fills the caller's info. Returns the status. */
uint32_t tell(mk_info *info, uint32_t status, const mk0_info *told);

/* The faults of mk_fail and mk_vanish, at a call that names the path: MK_DONE if the call continues; else what it returns,
   with the errno in told->code for MK_FAILED. */
uint32_t faults_before(mk0_handle *engine, const uint8_t *path, size_t len, mk0_info *told);

/* The call returned MK_TOO_SMALL and will be made again: it does not count. */
void faults_again(mk0_handle *engine, const uint8_t *path, size_t len);
void faults_drop(struct slot *slot);

/* The freezer of a mount in memory (freezer.c). All require the lock of the slot. What cgroup.freeze of the group says; and whether it
   or a group above it freezes. */
bool freezer_has(const struct slot *slot, const char *group);
bool freezer_is_frozen(const struct slot *slot, const char *group);

/* MK_DONE or MK_OUT_OF_MEMORY; the group exists. */
uint32_t freezer_set(struct slot *slot, const char *group, bool freezes);

/* A group may have been removed: one that is made in its place doesn't freeze. */
void freezer_look(struct slot *slot);

/* Repeats a look that had no memory, before a group can be made: MK_DONE or MK_OUT_OF_MEMORY. */
uint32_t freezer_catch_up(struct slot *slot);
void freezer_drop(struct slot *slot);

#endif
