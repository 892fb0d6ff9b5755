#include "common/growing_array.h"
#include <stdlib.h>

enum { FIRST = 64 };

/* The caller stores what is returned, unless it is NULL: then the old array is still the caller's. */
void *growing_array_make_room(void *array, size_t count, size_t *room, size_t each)
{
	if (count <= *room)
		return array;
	size_t wanted = *room ? *room : FIRST;
	/* Doubling: each element is copied a bounded number of times on average. An array never
	   becomes smaller. */
	while (wanted < count)
		wanted *= 2;
	void *at = realloc(array, wanted * each);
	if (at)
		*room = wanted;
	return at;
}
