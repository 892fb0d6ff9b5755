/* The helper passes open tables of mounts to the server. */
#ifndef TABLE_CHANNEL_H
#define TABLE_CHANNEL_H

#include <stdbool.h>

/* Before the server and the helper start: false with errno. Then each of them calls this: the helper has the first end. */
bool table_channel_begin(void);
enum { TABLE_CHANNEL_HELPER, TABLE_CHANNEL_SERVER };
void table_channel_be(int which);
/* The end of the helper. */
int table_channel_socket(void);

/* The number of a new table. It counts on in its upper half, and nobody can guess the other: else
   a program could open and close a table before the helper has opened it. Any thread of the helper
   may call it. */
long table_channel_number(void);
/* How many tables were numbered before it. */
long table_channel_count_of(long number);

/* What the helper sends there, with two descriptors of the kernel's table: its number, which of the tables it is, and the cgroup
   namespace of who reads it. */
struct given_table {
	long number;
	unsigned space;
	char what[16];
};
/* The server takes one; false if there is none. It never waits. The caller owns the two
   descriptors. */
bool table_channel_take(struct given_table *out, int fds[2]);

#endif
