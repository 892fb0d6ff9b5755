#include "channels/table_channel.h"
#include "channels/descriptor_passing.h"
#include <stdatomic.h>
#include <sys/random.h>
#include <sys/socket.h>
#include <unistd.h>

static int ends[2] = { -1, -1 };

/* A message and its descriptors stay together: SEQPACKET. */
bool table_channel_begin(void)
{
	return socketpair(AF_UNIX, SOCK_SEQPACKET | SOCK_CLOEXEC, 0, ends) == 0;
}

/* Each side closes the other's end: a peer that has ended is then seen as a closed socket. */
void table_channel_be(int which)
{
	close(ends[1 - which]);
	ends[1 - which] = -1;
}

int table_channel_socket(void)
{
	return ends[TABLE_CHANNEL_HELPER];
}

/* The counted half has 26 bits: the whole number is always positive. */
enum { LOWER = 32, COUNTED = (1 << 26) - 1 };

long table_channel_count_of(long number)
{
	return number >> LOWER;
}

/* Several threads of the helper may call it at once, so the count is atomic. */
long table_channel_number(void)
{
	static atomic_uint last;
	unsigned unknown = 0;
	long next = (long)(atomic_fetch_add(&last, 1) & COUNTED) + 1;
	(void)!getrandom(&unknown, sizeof unknown, 0); /* it cannot fail: so few bytes are always there */
	return (next << LOWER) + unknown;
}

bool table_channel_take(struct given_table *out, int fds[2])
{
	return descriptor_passing_take(ends[TABLE_CHANNEL_SERVER], out, sizeof *out, fds, 2, MSG_DONTWAIT);
}
