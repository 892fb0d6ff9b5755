#include "processes/reservations.h"
#include "common/group_paths.h"
#include "engine/engine.h"
#include <errno.h>
#include <stdlib.h>
#include <string.h>

/* The newest first. This file owns them. */
static struct reservation *all;
static size_t count;

/* The numbers count on, so an old one does not mean a new reservation for a very long time. */
int reservations_add(const struct reservation *like, const char *group, unsigned *number)
{
	static unsigned last;
	WANTS_LOCK();
	size_t size = strlen(group) + 1;
	/* With the text of its group in the same piece of memory. */
	struct reservation *r = malloc(sizeof *r + size);
	if (!r)
		return -ENOMEM;
	*r = *like;
	memcpy(r->group, group, size);
	if (++last == 0) /* which is none */
		last = 1;
	r->number = last;
	r->next = all;
	all = r;
	count++;
	*number = r->number;
	return 0;
}

/* NULL for 0, which is no reservation's number. */
const struct reservation *reservations_find(unsigned number)
{
	WANTS_LOCK();
	const struct reservation *r = all;
	while (r && r->number != number)
		r = r->next;
	return r;
}

/* A number that there is not is no fault: the reservation may have ended. */
void reservations_drop(unsigned number)
{
	WANTS_LOCK();
	struct reservation **at = &all;
	while (*at && (*at)->number != number)
		at = &(*at)->next;
	if (!*at)
		return;
	struct reservation *r = *at;
	*at = r->next;
	count--;
	free(r);
}

size_t reservations_count(void)
{
	WANTS_LOCK();
	return count;
}

/* There are few at a time: as many as calls under way, and what is allowed in advance. */
long reservations_below(const char *group)
{
	long below = 0;
	WANTS_LOCK();
	for (const struct reservation *r = all; r; r = r->next)
		below += is_at_or_below(r->group, group);
	return below;
}

/* The child may exist by now or come later: its birth finds the mark, and the child is not allowed
   to run. */
void reservations_kill(const char *group)
{
	WANTS_LOCK();
	for (struct reservation *r = all; r; r = r->next)
		r->killed |= is_at_or_below(r->group, group);
}
