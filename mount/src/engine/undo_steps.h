/* Which recorded commands are one operation of the program, and so are undone together: the move of a process with five
   threads is five. All require the engine's lock. */
#ifndef UNDO_STEPS_H
#define UNDO_STEPS_H

#include <stddef.h>

/* Before an operation: then there is room for it. 0 or -ENOMEM */
int undo_steps_make_room(void);
/* The commands from one place to another are one operation. The oldest command has place 0. */
/* From `from` to `to` - 1. */
void undo_steps_add(size_t from, size_t to);
/* Where the newest operation begins, if there are this many commands (without any, behind all places); and how many operations
   these are. */
size_t undo_steps_newest(size_t depth);
size_t undo_steps_count(size_t depth);
/* There are only this many commands left. */
void undo_steps_cut(size_t depth);

#endif
