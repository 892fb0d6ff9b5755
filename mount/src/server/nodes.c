#include "server/nodes.h"
#include "engine/engine.h"
#include "server/control.h"
#include "values/controllers.h"
#include <errno.h>
#include <stdio.h>
#include <string.h>
#include <sys/stat.h>
#include <unistd.h>

/* Beyond the numbers of any group. What is in the control directory has one number after the
   directory's. A group's number counts up by NUMBERS_OF_GROUP, and never comes that far. */
static const uint64_t number_control = (uint64_t)1 << 62;

/* One step for a file and one search for its group, since the number says both. */
int nodes_find(uint64_t number, struct node *out)
{
	WANTS_LOCK();
	*out = (struct node){ .control = CONTROL_ITSELF };
	if (number >= number_control) {
		out->control = CONTROL_ITSELF + (long)(number - number_control);
		return 0;
	}
	/* Numbers of groups are NUMBER_ROOT and a multiple of NUMBERS_OF_GROUP: what is left over is
	   the file's place. */
	uint64_t within = (number - NUMBER_ROOT) % NUMBERS_OF_GROUP;
	out->group = group_state_numbered(number - within);
	out->file = within ? file_in_place(within - 1) : NULL;
	return out->group ? 0 : -ENOENT;
}

/* It is the inverse of nodes_find: the same number as long as the group exists. */
uint64_t nodes_number(const struct node *node)
{
	if (!node->group)
		return number_control + (uint64_t)(node->control - CONTROL_ITSELF);
	return node->group->number + (node->file ? 1 + file_place(node->file) : 0);
}

/* What is neither the directory of the controls nor a group is a regular file. */
bool nodes_is_directory(const struct node *node)
{
	return node->group ? !node->file : node->control == CONTROL_ITSELF || node->control == CONTROL_HIDDEN;
}

/* 0755 for every directory. The mount belongs to one user, so only what the kernel's files allow
   is checked. */
mode_t nodes_mode(const struct node *node)
{
	if (nodes_is_directory(node))
		return S_IFDIR | 0755;
	return S_IFREG | (node->group ? file_mode(node->file) : control_mode(node->control));
}

/* The superuser may do all, as with CAP_DAC_OVERRIDE. Directories are open to all. */
int nodes_may(const struct node *node, int mask, uid_t uid)
{
	mode_t mode = nodes_mode(node);
	if (uid == 0 || S_ISDIR(mode))
		return 0;
	return (mask & R_OK && !(mode & 0444)) || (mask & W_OK && !(mode & 0222)) ? -EACCES : 0;
}

/* The control directory's path has its name before that of the file. 4,095 bytes is the most that
   the trace language takes. */
int nodes_path(const struct node *directory, const char *name, char out[PATH_MAX_SAID])
{
	bool is_control = !directory->group && directory->control == CONTROL_ITSELF;
	const char *above = directory->group && !is_root(directory->group->path) ? directory->group->path : "";
	int n = snprintf(out, PATH_MAX_SAID, "%s%s/%s", is_control ? "/" : "", is_control ? control_directory : above,
		name);
	return n < PATH_MAX_SAID ? 0 : -ENAMETOOLONG;
}

/* A negative number is an errno, except CONTROL_ITSELF. */
static int find_control(const char *path, struct node *out)
{
	long control = control_find(path);
	if (control < CONTROL_ITSELF)
		return (int)control;
	*out = (struct node){ .control = control };
	return 0;
}

/* A group whose state is remembered exists: a removal drops the state. Else the engine knows. */
static int find_group(const char *path, struct node *out)
{
	struct group_state *r = group_state_find(path);
	int fault = r ? 0 : engine_has_group(path);
	if (fault)
		return fault;
	*out = (struct node){ .group = r ? r : group_state_make(path) };
	return out->group ? 0 : -ENOMEM;
}

/* It may make the state of the group above, which was looked up by nobody. */
int nodes_find_above(const struct node *node, struct node *out)
{
	char path[PATH_MAX_SAID];
	snprintf(path, sizeof path, "%s", node->group ? node->group->path : "/");
	go_up(path);
	*out = (struct node){ .group = group_state_make(path) };
	return out->group ? 0 : -ENOMEM;
}

/* For file handles, as of name_to_handle_at: the kernel finds them by "." and "..". */
static int find_relative(const struct node *node, bool above, struct node *out)
{
	if (above)
		return nodes_find_above(node, out);
	*out = *node;
	return 0;
}

int nodes_find_below(const struct node *directory, const char *name, struct node *out)
{
	char path[PATH_MAX_SAID];
	/* The kernel sends these two only for file handles (FUSE_CAP_EXPORT_SUPPORT). */
	bool above = strcmp(name, "..") == 0;
	WANTS_LOCK();
	if (directory->group && directory->group->gone)
		return -ENOENT;
	if (above || strcmp(name, ".") == 0)
		return find_relative(directory, above, out);
	const struct file *file = directory->group ? file_named(name, is_root(directory->group->path)) : NULL;
	if (file) { /* its path may be longer than that of any group */
		*out = (struct node){ .group = directory->group, .file = file };
		return controllers_have(directory->group->path, file) ? 0 : -ENOENT;
	}
	int fault = nodes_path(directory, name, path);
	if (fault)
		return fault;
	if (control_has(path))
		return find_control(path, out);
	return directory->group ? find_group(path, out) : -ENOENT;
}

/* The count protects the state: it is freed once the group is gone and this is 0. */
void nodes_known(const struct node *node)
{
	WANTS_LOCK();
	if (node->group)
		node->group->known++;
}

/* The kernel may forget many look-ups by one message. */
void nodes_forget(uint64_t number, uint64_t count)
{
	struct node node;
	/* The control directory is there for as long as the mount, and is not counted. */
	if (nodes_find(number, &node) || !node.group)
		return;
	node.group->known -= count;
	group_state_tidy(node.group);
}
