/* What the kernel shows of the engine's texts: no zombies, and processes without their threads. */
#ifndef VISIBLE_PROCESSES_H
#define VISIBLE_PROCESSES_H

#include "values/files.h"
#include <stddef.h>

/* Requires the engine's lock. The text of a file: the engine's, or another one. 0 or -errno */
int visible_processes_text(const char *group, const struct file *file, const char **text, size_t *size);

#endif
