/* cpuset.*: lists of processors and of memory nodes of this machine. */
#include "engine/engine.h"
#include "values/machine.h"
#include "values/scan.h"
#include "values/values.h"
#include <errno.h>
#include <stdio.h>
#include <string.h>

/* By the beginning: the names of effective lists go on. */
static bool is_mems(const struct file *file)
{
	return strncmp(file->name, "cpuset.mems", 11) == 0;
}

/* Empty means: as the group above. A number beyond the kernel's own is ERANGE, one that the machine can't have EINVAL. */
int cpuset_take_list(const char *group, const struct file *file, const char *said, char out[TEXT_ROOM])
{
	char text[TEXT_ROOM + 1];
	struct number_ranges wanted;
	const struct number_ranges *possible = machine_has(is_mems(file) ? NODES_POSSIBLE : CPUS_POSSIBLE);
	(void)group;
	snprintf(text, sizeof text, "%s", said);
	unsigned bits = is_mems(file) ? NODES_MAX : number_ranges_last(possible) + 1;
	int fault = number_ranges_read(strip_spaces(text), bits, &wanted);
	if (fault)
		return fault;
	if (!number_ranges_is_within(&wanted, possible))
		return -EINVAL;
	/* A list that is longer than a file can be. */
	return number_ranges_write(&wanted, out, TEXT_ROOM) ? 0 : -ENOMEM;
}

/* What is both in the group's list and in that above it; if that is nothing, all of the list above. */
/* `effective` is that of the group above, and becomes this group's. */
static void narrow(const char *group, const char *name, struct number_ranges *effective)
{
	struct number_ranges own, left = *effective;
	(void)number_ranges_read(values_kept(group, name), NUMBER_RANGES_MAX, &own); /* it is a list: it was accepted */
	number_ranges_keep_common(&left, &own);
	if (!number_ranges_is_empty(&left))
		*effective = left;
}

/* It is made at each read: a change above takes effect at once. */
int cpuset_show_effective(const char *group, const struct file *file, char out[TEXT_ROOM])
{
	char at[PATH_MAX_SAID];
	struct number_ranges effective = *machine_has(is_mems(file) ? NODES_WITH_MEMORY : CPUS_ONLINE);
	const char *name = is_mems(file) ? "cpuset.mems" : "cpuset.cpus";
	/* From the top down to the group: each list narrows the one above it. */
	for (size_t n = 1; !is_root(group); n++)
		if (group[n] == '/' || group[n] == 0) {
			snprintf(at, sizeof at, "%.*s", (int)n, group);
			narrow(at, name, &effective);
			if (group[n] == 0)
				break;
		}
	if (!number_ranges_write(&effective, out, TEXT_ROOM))
		snprintf(out, TEXT_ROOM, "\n");
	return 0;
}

/* ---------------------------------------------------------------- cpuset.cpus.partition */

/* Any of the three words is accepted. Whether the partition is valid, a read says. */
int cpuset_take_partition(const char *group, const struct file *file, const char *said, char out[TEXT_ROOM])
{
	static const char *const words[] = { "member", "root", "isolated" };
	char text[TEXT_ROOM + 1];
	(void)group, (void)file;
	snprintf(text, sizeof text, "%s", said);
	const char *word = strip_spaces(text);
	for (size_t i = 0; i < sizeof words / sizeof *words; i++)
		if (strcmp(word, words[i]) == 0) {
			snprintf(out, TEXT_ROOM, "%s\n", word);
			return 0;
		}
	return -EINVAL;
}

/* It calls itself for the group above, at most once for each level. NULL: it is valid. */
static const char *why_invalid(const char *group)
{
	char above[PATH_MAX_SAID];
	snprintf(above, sizeof above, "%s", group);
	go_up(above);
	if (!is_root(above)) {
		if (strcmp(values_kept(above, "cpuset.cpus.partition"), "member\n") == 0)
			return "Parent is not a partition root";
		if (why_invalid(above))
			return "Parent is an invalid partition root";
	}
	return values_kept(group, "cpuset.cpus")[0] == '\n' ? "cpuset.cpus and cpuset.cpus.exclusive are empty" : NULL;
}

/* Of a partition that is not valid the kernel shows the word, and why. */
int cpuset_show_partition(const char *group, const struct file *file, char out[TEXT_ROOM])
{
	const char *kept = values_kept(group, file->name);
	const char *why = strcmp(kept, "member\n") == 0 ? NULL : why_invalid(group);
	if (why)
		snprintf(out, TEXT_ROOM, "%.*s invalid (%s)\n", (int)strcspn(kept, "\n"), kept, why);
	else
		snprintf(out, TEXT_ROOM, "%s", kept);
	return 0;
}
