/* Whether a process of the program may have another root directory, or see other mounts, than the program had when it began. The
   supervisor knows each call that changes that; the helper asks before it looks up a path for a process. */
#ifndef ROOTS_H
#define ROOTS_H

#include <stdbool.h>

/* Before the helper starts; false if there is no memory for it. */
bool roots_begin(void);
/* A call that may change the root is about to be made. The supervisor sets it before the call is
   made, so that no look-up comes in between by the old root. It is never reset. */
void roots_change(void);
/* Whether there was such a call. The helper asks. */
bool roots_have_changed(void);

#endif
