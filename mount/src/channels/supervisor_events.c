#include "channels/supervisor_events.h"
#include "channels/shared_memory.h"
#include <stdatomic.h>
#include <stddef.h>

enum { ROOM = 256 };

/* A ring: one process writes, and one reads, with the engine's lock. The numbers of the next place
   count on, and wrap around. It needs no lock between the two. If the server is killed, nobody
   reads, and the supervisor finds that out by its socket when the ring is full. Only the
   supervisor writes `written`, only the server `read` and `kills`. */
static struct shared {
	atomic_uint written, read;
	atomic_bool kills;
	struct supervisor_event {
		unsigned reservation;
		pid_t thread;
	} all[ROOM];
} * shared;

bool supervisor_events_begin(void)
{
	shared = shared_memory_new(sizeof *shared);
	return shared != NULL;
}

bool supervisor_events_put(unsigned reservation, pid_t thread)
{
	unsigned next = atomic_load(&shared->written);
	/* The difference is right also after one of the two has wrapped around, since both are
	   unsigned. */
	if (next - atomic_load(&shared->read) == ROOM)
		return false;
	shared->all[next % ROOM] = (struct supervisor_event){ reservation, thread };
	/* last: the reader takes all places below this number */
	atomic_store(&shared->written, next + 1);
	return true;
}

bool supervisor_events_take(unsigned *reservation, pid_t *thread)
{
	/* A mount without a run has no supervisor, and so no ring. */
	unsigned next = shared ? atomic_load(&shared->read) : 0;
	if (!shared || next == atomic_load(&shared->written))
		return false;
	*reservation = shared->all[next % ROOM].reservation;
	*thread = shared->all[next % ROOM].thread;
	/* last: from then on the writer may use the place again */
	atomic_store(&shared->read, next + 1);
	return true;
}

void supervisor_events_set_kills(bool kills)
{
	if (shared)
		atomic_store(&shared->kills, kills);
}

bool supervisor_events_is_killing(void)
{
	return atomic_load(&shared->kills);
}
