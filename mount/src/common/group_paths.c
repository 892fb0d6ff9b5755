#include "common/group_paths.h"
#include <stdio.h>
#include <string.h>

const char cgroup_mount[] = "/sys/fs/cgroup", cgroup_source[] = "cgroup2", group_attribute[] = "system.makhloeum.group";

bool is_root(const char *group)
{
	return group[0] == '/' && group[1] == 0;
}

/* The slash of the root stays: /a becomes /, and not an empty text. */
void go_up(char *group)
{
	char *last = strrchr(group, '/');
	if (last == group)
		last++;
	*last = 0;
}

/* /ab begins with /a and is not below it: so the name has to end where `top` does. */
bool is_at_or_below(const char *group, const char *top)
{
	size_t n = strlen(top);
	return is_root(top) || (strncmp(group, top, n) == 0 && (group[n] == 0 || group[n] == '/'));
}

/* As the kernel writes a path of another cgroup namespace: /.. for each name of the root below the
   groups that both have above them, then the rest of the path. */
void seen_from(const char *root, const char *group, char out[PATH_MAX_SAID])
{
	size_t common = 0, n = 0;
	if (is_root(root))
		root = "";
	if (is_root(group))
		group = "";
	/* `common` is where the last name ends that both paths have. */
	for (size_t i = 0; root[i] == group[i] || !root[i] || !group[i]; i++) {
		if ((root[i] == 0 || root[i] == '/') && (group[i] == 0 || group[i] == '/'))
			common = i;
		if (!root[i] || !group[i])
			break;
	}
	/* Each /.. takes three bytes, and the zero byte one: a path that does not fit is cut, never
	   written beyond its room. */
	out[0] = 0;
	for (const char *up = root + common; *up && n + 4 < PATH_MAX_SAID; up++)
		if (*up == '/')
			n += (size_t)snprintf(out + n, PATH_MAX_SAID - n, "/..");
	snprintf(out + n, PATH_MAX_SAID - n, "%s", n == 0 && !group[common] ? "/" : group + common);
}
