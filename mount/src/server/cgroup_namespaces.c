#include "server/cgroup_namespaces.h"
#include "common/group_paths.h"
#include "engine/engine.h"
#include <errno.h>
#include <stdlib.h>
#include <string.h>

/* The kernel reuses a number once its namespace is gone, so there are as many entries as there
   ever were namespaces at once. `all` has those that exist, by the kernel's number; `coming` those
   whose call is under way, by the number of the call. */
static struct cgroup_namespace {
	struct cgroup_namespace *next;
	unsigned number; /* or that of the call that is about to make it */
	char root[];
} * all, *coming;

/* Takes an entry out of a list; NULL: it has none. */
/* The caller owns the entry. */
static struct cgroup_namespace *take(struct cgroup_namespace **at, unsigned number)
{
	while (*at && (*at)->number != number)
		at = &(*at)->next;
	struct cgroup_namespace *s = *at;
	if (s)
		*at = s->next;
	return s;
}

static void add(struct cgroup_namespace **list, struct cgroup_namespace *s, unsigned number)
{
	s->number = number;
	s->next = *list;
	*list = s;
}

int cgroup_namespaces_prepare(unsigned call, pid_t process, const char *into)
{
	char group[PATH_MAX_SAID] = "/";
	WANTS_LOCK();
	/* The group is stored now: the process may be moved while the call is made. */
	if (!into && engine_where(process, group, sizeof group) == -ENOMEM)
		return -ENOMEM;
	const char *root = into ? into : group;
	size_t size = strlen(root) + 1;
	/* All memory is taken before the call: what is told after it cannot fail. */
	struct cgroup_namespace *s = malloc(sizeof *s + size);
	if (!s)
		return -ENOMEM;
	memcpy(s->root, root, size);
	free(take(&coming, call)); /* of another thread that had this number */
	add(&coming, s, call);
	return 0;
}

void cgroup_namespaces_made(unsigned number, unsigned call)
{
	WANTS_LOCK();
	struct cgroup_namespace *s = take(&coming, call);
	if (!s || !number) {
		free(s);
		return;
	}
	/* That namespace is gone, since the kernel has given its number away. */
	free(take(&all, number));
	add(&all, s, number);
}

/* It stays valid until the next namespace is made. */
const char *cgroup_namespaces_root(unsigned number)
{
	WANTS_LOCK();
	const struct cgroup_namespace *s = all;
	while (s && s->number != number)
		s = s->next;
	return s ? s->root : "/";
}
