/* Forks and threads that were allowed and are not made yet. Each counts against every limit at or above its group. All require the
   engine's lock. */
#ifndef RESERVATIONS_H
#define RESERVATIONS_H

#include <stdbool.h>
#include <stddef.h>
#include <sys/types.h>

struct reservation {
	struct reservation *next;
	unsigned number;
	/* Whose child it will be; 0: nobody's, as of the first process. */
	pid_t parent;
	bool elsewhere; /* the child is born in another group than its parent's */
	/* in_advance: nobody has asked for it yet. killed: a kill reached the group before the birth. */
	bool is_thread, in_advance, killed;
	unsigned long allowed_in; /* after this operation of the file system, and before the next */
	char group[];
};

/* `like` has what the reservation is for. 0 or -ENOMEM */
int reservations_add(const struct reservation *like, const char *group, unsigned *number);
/* NULL if there is none. It stays valid until it is dropped. */
const struct reservation *reservations_find(unsigned number);
void reservations_drop(unsigned number);
size_t reservations_count(void);
/* How many there are at or below a group. */
long reservations_below(const char *group);
/* A kill in the hierarchy reached a group. */
void reservations_kill(const char *group);

#endif
