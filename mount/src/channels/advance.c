#include "channels/advance.h"
#include "channels/shared_memory.h"
#include <stdatomic.h>
#include <stddef.h>
#include <stdint.h>

/* Each process has a few places for threads and one for a child, which it shares with others. A
   place has a process and its reservation, or 0. Two processes whose numbers are PLACES / EACH
   apart have the same places for threads: then one of them asks the server more often, and nothing
   else changes. */
enum { PLACES = 512, EACH = 8, ALL = 2 * PLACES };

/* Both processes change a place, each by one atomic operation: so exactly one of them gets a
   reservation. The upper half of a place is the number of the process, the lower half its
   reservation. No process has the number 0, so 0 is an empty place. */
static _Atomic uint64_t *places;
static size_t given; /* by the server, and not taken back by it: the supervisor may have taken them */

bool advance_begin(void)
{
	places = shared_memory_new(ALL * sizeof *places);
	return places != NULL;
}

static int places_of(bool is_thread)
{
	return is_thread ? EACH : 1;
}

static _Atomic uint64_t *place_of(pid_t process, bool is_thread, int i)
{
	size_t number = (size_t)process;
	return &places[is_thread ? (number * EACH + (size_t)i) % PLACES : PLACES + number % PLACES];
}

static bool is_of(uint64_t word, pid_t process)
{
	return word >> 32 == (uint64_t)process;
}

/* A place may become empty during the look, when the supervisor takes it: then the process gets
   one more the next time. */
bool advance_wants(pid_t process, bool is_thread)
{
	bool wants = false;
	for (int i = 0; i < places_of(is_thread); i++)
		wants |= !is_of(atomic_load(place_of(process, is_thread, i)), process);
	return wants;
}

/* The exchange stores the new reservation and reads the old one in one step: the supervisor may
   take the old one until then, and the caller drops only what nobody took. If no place is empty or
   another process's, the last one is used. */
unsigned advance_give(pid_t process, bool is_thread, unsigned reservation)
{
	int i = 0;
	while (i < places_of(is_thread) - 1 && is_of(atomic_load(place_of(process, is_thread, i)), process))
		i++;
	given++;
	return (unsigned)atomic_exchange(place_of(process, is_thread, i), (uint64_t)process << 32 | reservation);
}

unsigned advance_take_any(void)
{
	static size_t at; /* of those before it none is left */
	for (; given > 0 && at < ALL; at++) {
		/* The load alone finds most places empty, and costs less than an exchange. */
		unsigned reservation = atomic_load(&places[at]) ? (unsigned)atomic_exchange(&places[at], 0) : 0;
		if (reservation)
			return reservation;
	}
	at = given = 0;
	return 0;
}

unsigned advance_take(pid_t process, bool is_thread)
{
	for (int i = 0; i < places_of(is_thread); i++) {
		_Atomic uint64_t *place = place_of(process, is_thread, i);
		uint64_t there = atomic_load(place);
		/* It fails if the other process has changed the place since the load: then the next place
		   is tried. */
		if (is_of(there, process) && atomic_compare_exchange_strong(place, &there, 0))
			return (unsigned)there;
	}
	return 0;
}
