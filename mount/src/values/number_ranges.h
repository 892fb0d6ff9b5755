/* Lists of numbers as the kernel writes and reads those of processors: 0-3,8. */
#ifndef NUMBER_RANGES_H
#define NUMBER_RANGES_H

#include <stdbool.h>
#include <stddef.h>

/* The most numbers that a list can have; and how many the kernel has for memory nodes. */
enum { NUMBER_RANGES_MAX = 8192, NODES_MAX = 1024 };

/* A set: the number n is in it if its bit is 1. */
struct number_ranges {
	unsigned char bits[NUMBER_RANGES_MAX / 8];
};

/* 0; -ERANGE for a number that is not below `bits` (at most NUMBER_RANGES_MAX), -EINVAL if it is not a list. */
int number_ranges_read(const char *text, unsigned bits, struct number_ranges *out);
/* With a line feed; false if it does not fit. */
bool number_ranges_write(const struct number_ranges *l, char *out, size_t size);
bool number_ranges_is_empty(const struct number_ranges *l);
bool number_ranges_is_within(const struct number_ranges *l, const struct number_ranges *all);
void number_ranges_keep_common(struct number_ranges *l, const struct number_ranges *other);
/* The last number; 0 for none. */
unsigned number_ranges_last(const struct number_ranges *l);

#endif
