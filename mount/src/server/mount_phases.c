#include "server/mount_phases.h"
#include "channels/mount_steps.h"
#include <errno.h>
#include <string.h>

/* As in the kernel: EBUSY after a failure or once it is created, EINVAL for a second source. */
static int set(struct mount_context *c, bool is_source)
{
	if (c->phase != PARAMETERS && c->phase != MOUNTED)
		return -EBUSY;
	if (is_source && c->has_source)
		return -EINVAL;
	c->has_source |= is_source;
	return 0;
}

/* There is one file system of groups, so none can be made alone. */
static int create(struct mount_context *c, bool alone)
{
	if (c->phase != PARAMETERS)
		return -EBUSY;
	c->phase = alone ? FAILED : CREATED;
	/* After a failure the context takes nothing more. */
	return alone ? -EBUSY : 0;
}

/* That is for the superuser of the machine. */
static int reconfigure(struct mount_context *c)
{
	if (c->phase != MOUNTED)
		return -EBUSY;
	c->phase = FAILED;
	return -EPERM;
}

/* The context is as new afterwards, but knows that it has made a mount. */
static int begin_use(struct mount_context *c)
{
	if (c->phase != CREATED)
		return c->is_mounted ? -EBUSY : -EINVAL;
	*c = (struct mount_context){ .phase = MOUNTED, .is_mounted = true };
	return 0;
}

/* EINVAL for all that is no message: a program may write to the descriptor. */
int mount_phases_step(struct mount_context *c, const char *data, size_t size)
{
	struct mount_step_message said;
	/* A write that the helper did not make: a program can write to the descriptor too. */
	if (size != sizeof said || memcmp(data, MOUNT_STEP_MARK, sizeof said.mark) != 0)
		return -EINVAL;
	memcpy(&said, data, sizeof said);
	switch (said.step) {
	case SET:
	case NAME_SOURCE:
		return set(c, said.step == NAME_SOURCE);
	case CREATE:
	case CREATE_ALONE:
		return create(c, said.step == CREATE_ALONE);
	case RECONFIGURE:
		return reconfigure(c);
	case MOUNT:
		return begin_use(c);
	case PICK:
		*c = (struct mount_context){ .phase = MOUNTED, .is_mounted = true };
		return 0;
	default:
		return -EINVAL;
	}
}
