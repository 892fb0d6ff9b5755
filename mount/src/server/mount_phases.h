/* Mounts that are made step by step: what each allows next, as the kernel's. Its other differences from a file: it can't be read or
   sought. */
#ifndef MOUNT_PHASES_H
#define MOUNT_PHASES_H

#include <stdbool.h>
#include <stddef.h>

/* Of one open file, zero at first. mount_phases_step alone changes it, with the engine's lock. */
struct mount_context {
	enum { PARAMETERS, CREATED, MOUNTED, FAILED } phase;
	bool has_source;
	bool is_mounted; /* or was once */
};

/* What was written: 0 or -errno. */
int mount_phases_step(struct mount_context *c, const char *data, size_t size);

#endif
