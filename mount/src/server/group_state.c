#include "server/group_state.h"
#include "engine/engine.h"
#include "server/attributes.h"
#include "server/open_files.h"
#include "server/owner.h"
#include "server/watch.h"
#include "values/values.h"
#include <search.h>
#include <stdlib.h>
#include <string.h>

/* A group that was removed leaves `paths` at once, and `numbers` when the kernel has forgotten it. */
static void *paths, *numbers; /* trees: of the groups that exist, and of those that are gone too */

/* The trees compare what they are searched for with what they have: only this field of it is set. */
static int by_path(const void *a, const void *b)
{
	return strcmp(((const struct group_state *)a)->path, ((const struct group_state *)b)->path);
}

static int by_number(const void *a, const void *b)
{
	uint64_t m = ((const struct group_state *)a)->number, n = ((const struct group_state *)b)->number;
	return m < n ? -1 : m > n;
}

/* In time that grows with the logarithm of the groups. */
struct group_state *group_state_find(const char *group)
{
	WANTS_LOCK();
	struct group_state wanted = { .path = group };
	struct group_state *const *at = tfind(&wanted, &paths, by_path);
	return at ? *at : NULL;
}

/* By this one, requests of the kernel find a group that was removed. */
struct group_state *group_state_numbered(uint64_t number)
{
	WANTS_LOCK();
	struct group_state wanted = { .number = number };
	struct group_state *const *at = tfind(&wanted, &numbers, by_number);
	return at ? *at : NULL;
}

/* A number is used once. So a request with an old number never reaches a newer group. */
static uint64_t new_number(const char *group)
{
	static uint64_t last = NUMBER_ROOT;
	return is_root(group) ? NUMBER_ROOT : (last += NUMBERS_OF_GROUP);
}

struct group_state *group_state_make(const char *group)
{
	struct group_state *r = group_state_find(group);
	if (r)
		return r;
	size_t size = strlen(group) + 1;
	/* In the trees and the lists there are pointers to it, so it never moves. */
	r = calloc(1, sizeof *r + size);
	if (!r)
		return NULL;
	memcpy(r->bytes, group, size);
	r->path = r->bytes;
	r->number = new_number(group);
	owner_begin(r, NULL);
	/* Each takes memory. If the second has none, the first is taken back: no tree has a group that
	   the other lacks. */
	if (tsearch(r, &paths, by_path)) {
		if (tsearch(r, &numbers, by_number))
			return r;
		tdelete(r, &paths, by_path);
	}
	free(r);
	return NULL;
}

struct visit {
	const char *top;
	void (*call)(const struct group_state *r);
};

static void visit(const void *node, VISIT when, void *which)
{
	const struct visit *v = which;
	const struct group_state *r = *(struct group_state *const *)node;
	/* Each node comes once in one of these two ways, in the order of the paths. */
	if ((when == postorder || when == leaf) && is_at_or_below(r->path, v->top))
		v->call(r);
}

/* twalk_r hands the visit its own words, so there is no state beside the tree. */
void group_state_each(const char *top, void (*call)(const struct group_state *r))
{
	WANTS_LOCK();
	twalk_r(paths, visit, &(struct visit){ top, call });
}

/* NULL is allowed: then there is nothing to do. */
void group_state_tidy(struct group_state *r)
{
	WANTS_LOCK();
	if (!r || !r->gone || r->known)
		return;
	/* Nothing else is left: group_state_lose has dropped the rest. */
	owner_forget(r);
	attributes_forget(r);
	tdelete(r, &numbers, by_number);
	free(r);
}

/* Nothing finds it by its path any more, so a new group of that name has its own state. By its number it is found as long as the
   kernel knows a file of it: a request that comes late hears that the group is gone. */
void group_state_lose(const char *group)
{
	struct group_state *r = group_state_find(group);
	if (!r)
		return;
	/* First, so that nothing that follows wakes or finds an open file of it. */
	open_files_lose(r);
	watch_forget(r);
	values_forget(r, ~0U);
	tdelete(r, &paths, by_path);
	r->gone = true;
	group_state_tidy(r);
}
