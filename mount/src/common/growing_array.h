/* Arrays that grow. */
#ifndef GROWING_ARRAY_H
#define GROWING_ARRAY_H

#include <stddef.h>

/* The array with room for `count` elements of `each` bytes, which may have moved; NULL without memory, and then it is as before.
   `room` is how many it has room for, at first 0. */
void *growing_array_make_room(void *array, size_t count, size_t *room, size_t each);

#endif
