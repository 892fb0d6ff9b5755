/* The freezer: cgroup.freeze, and the line `frozen` of cgroup.events. The engine does not have it. A process that is only a
   number is frozen as soon as its group is. A process under the supervisor really stops: the server says which processes
   have to stop, and the supervisor says which have stopped. */
#ifndef FREEZER_H
#define FREEZER_H

#include "server/group_state.h"

/* Under `run`: this eventfd wakes the supervisor when there are orders. False if it cannot be made. */
bool freezer_begin(int *wake);

/* The rest requires the engine's lock. A write changes everything or, if it fails, nothing. */
int freezer_show(const char *group, const struct file *file, char out[TEXT_ROOM]);
int freezer_write(const char *group, const struct file *file, const char *data, size_t size);
/* The text of a file, with the current line `frozen`. 0, or -errno if that can't be known. */
int freezer_text(const char *group, const struct file *file, const char **text, size_t size);

/* A process is now in this group. */
void freezer_moved(pid_t pid, const char *group);
/* An undo may have moved any process. If memory does not suffice to look at all of them, none is ordered before
   freezer_catch_up looks again: a process that has to stop runs on until then, and no group says that it is frozen. */
void freezer_undone(void);
void freezer_catch_up(void);

/* The supervisor's questions. Whether a process that is just being made in this group starts frozen. */
bool freezer_born(pid_t pid, const char *group);
void freezer_gone(pid_t pid);
/* All threads of a process have stopped, or run again. */
void freezer_told(pid_t pid, bool stopped);
/* The next order: a process that has to stop or to continue; 0: there is none. */
void freezer_order(pid_t *pid, bool *stop);

#endif
