/* The freezer of a mount in memory: cgroup.freeze, and the line `frozen` of cgroup.events, as mk_put and mk_get have them. The engine
   doesn't have it. A process is only a number, so it is frozen as soon as its group is. */
#include "private.h"
#include <stdlib.h>
#include <string.h>

/* A group in which 1 was written. */
struct frozen {
	struct frozen *next;
	size_t len;
	char group[];
};

static struct frozen **find(struct slot *slot, const char *group)
{
	struct frozen **at = &slot->frozen;
	while (*at != NULL && strcmp((*at)->group, group) != 0)
		at = &(*at)->next;
	return at;
}

bool freezer_has(const struct slot *slot, const char *group)
{
	for (const struct frozen *it = slot->frozen; it != NULL; it = it->next)
		if (strcmp(it->group, group) == 0)
			return true;
	return false;
}

bool freezer_is_frozen(const struct slot *slot, const char *group)
{
	for (const struct frozen *it = slot->frozen; it != NULL; it = it->next)
		if (strncmp(it->group, group, it->len) == 0 && (group[it->len] == 0 || group[it->len] == '/'))
			return true;
	return false;
}

static void drop(struct frozen **at)
{
	struct frozen *it = *at;
	*at = it->next;
	free(it);
}

uint32_t freezer_set(struct slot *slot, const char *group, bool freezes)
{
	struct frozen **at = find(slot, group);
	if (*at != NULL && !freezes)
		drop(at);
	if (*at != NULL || !freezes)
		return MK_DONE;
	size_t len = strlen(group);
	struct frozen *it = malloc(sizeof *it + len + 1);
	if (it == NULL)
		return MK_OUT_OF_MEMORY;
	*it = (struct frozen){ .next = slot->frozen, .len = len };
	memcpy(it->group, group, len + 1);
	slot->frozen = it;
	return MK_DONE;
}

void freezer_look(struct slot *slot)
{
	mk0_info told;
	slot->must_look = false;
	for (struct frozen **at = &slot->frozen; *at != NULL;) {
		uint32_t status = mk0_has_group(&slot->engine, (const uint8_t *)(*at)->group, (*at)->len, &told);
		slot->must_look |= status == MK_OUT_OF_MEMORY;
		if (status == MK_REFUSED)
			drop(at);
		else
			at = &(*at)->next;
	}
}

uint32_t freezer_catch_up(struct slot *slot)
{
	if (slot->must_look)
		freezer_look(slot);
	return slot->must_look ? MK_OUT_OF_MEMORY : MK_DONE;
}

void freezer_drop(struct slot *slot)
{
	while (slot->frozen != NULL)
		drop(&slot->frozen);
	slot->must_look = false;
}
