#include "processes/members.h"
#include "engine/engine.h"
#include "processes/visible_processes.h"
#include <stdlib.h>
#include <string.h>

/* `take` may not ask the engine, since it reads the engine's text meanwhile. */
static int each_in(const char *group, bool all, int (*take)(pid_t pid, const char *group))
{
	size_t size;
	int fault = engine_look("cat %s cgroup.procs", group);
	if (fault)
		return fault;
	const char *text = engine_text(&size);
	if (!all && (fault = visible_processes_text(group, file_named("cgroup.procs", true), &text, &size)))
		return fault;
	for (const char *end = text + size; text < end && fault == 0;) {
		pid_t pid = (pid_t)strtol(text, NULL, 10);
		fault = take(pid, group);
		text = (const char *)memchr(text, '\n', (size_t)(end - text)) + 1;
	}
	return fault;
}

/* It takes one look for the paths, and one for each group. */
int members_each(const char *top, bool all, int (*take)(pid_t pid, const char *group))
{
	const char *paths;
	size_t count;
	WANTS_LOCK();
	/* The paths have a buffer of their own, which the looks in the loop leave alone. */
	int fault = engine_groups(top, &paths, &count);
	for (; fault == 0 && count--; paths += strlen(paths) + 1)
		fault = each_in(paths, all, take);
	return fault;
}
