/* The text of a group's file for a read: the engine's, corrected by what the mount knows, or the mount's own. */
#ifndef TEXTS_H
#define TEXTS_H

#include "values/files.h"

/* Requires the engine's lock. 0 or -errno, and the text, which is valid until the next call. If it is the engine's, and
   `keeps`, the line is kept. */
/* ENOMEM is the usual fault. A refusal of the engine is one too: the group is gone. */
int texts_read(const char *group, const struct file *file, bool keeps, const char **text, size_t *size);

#endif
