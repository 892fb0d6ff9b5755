/* Threads with a hierarchy of their own each: no call of one sees anything of another's, so that it knows each answer. Exits with 1 at
   the first difference; prints how many checks held. */
#include "check.h"
#include <pthread.h>
#include <stdatomic.h>

enum { APART = 4, ROUNDS = 5000, MOST = 64 };

static atomic_int wrong;
static pthread_barrier_t all_are_there;

#define HOLDS(holds)                                                    \
	do {                                                                \
		if (!(holds)) {                                                 \
			fprintf(stderr, "%s:%d: %s\n", __FILE__, __LINE__, #holds); \
			atomic_store(&wrong, 1);                                    \
			return;                                                     \
		}                                                               \
	} while (0)

/* The processes of /a are `first`, `first` + 1, .. */
static void look(mk_handle *own, int first, int count)
{
	mk_info told;
	uint32_t pids[MOST];
	uint64_t value;
	char text[MK_READ_MAX(MOST)], want[MK_READ_MAX(MOST)] = "";
	size_t len = 0;
	HOLDS(mk_processes(own, "/a", pids, MOST, &told) == MK_DONE && told.count == (size_t)count);
	for (int i = 0; i < count; i++) {
		HOLDS(pids[i] == (uint32_t)(first + i));
		len += (size_t)snprintf(want + len, sizeof want - len, "%d\n", first + i);
	}
	HOLDS(mk_read(own, "/a", "cgroup.procs", text, sizeof text, &told) == MK_DONE && strcmp(text, want) == 0);
	HOLDS(mk_get(own, "/a", "cgroup.threads", text, sizeof text, &told) == MK_DONE && strcmp(text, want) == 0);
	HOLDS(
		mk_wait_file(own, "/a", "cgroup.procs", "", 0, text, sizeof text, &told) == MK_DONE && strcmp(text, want) == 0);
	HOLDS(mk_current(own, "/a", &value, &told) == MK_DONE && value == (uint64_t)count);
	snprintf(want, sizeof want, "0::/a\n");
	HOLDS(mk_where(own, first, text, sizeof text, &told) == MK_DONE && strcmp(text, want) == 0);
	mk_text texts[2];
	HOLDS(mk_read_many(own, "/a\0pids.current\0/\0cgroup.procs", 2, texts, text, sizeof text, &told) == MK_DONE);
	snprintf(want, sizeof want, "%d\n", count);
	HOLDS(strcmp(text + texts[0].at, want) == 0 && strcmp(text + texts[1].at, "1\n") == 0);
	HOLDS(mk_processes(own, "/a", pids, (size_t)count - 1, &told) == MK_TOO_SMALL && told.needed == (size_t)count);
}

static void fill(mk_handle *own, int first, int count)
{
	mk_info told;
	HOLDS(mk_open(own) == MK_DONE && mk_mkdir(own, "/a", &told) == MK_DONE && mk_fork(own, 1, first, &told) == MK_DONE);
	HOLDS(mk_attach(own, "/a", first, &told) == MK_DONE);
	for (int i = 1; i < count; i++)
		HOLDS(mk_fork(own, first, first + i, &told) == MK_DONE);
}

static void *body(void *number)
{
	int at = *(int *)number, first = 100 * (at + 1), count = 10 * (at + 1);
	mk_handle own = { 0 };
	fill(&own, first, count);
	pthread_barrier_wait(&all_are_there);
	for (int i = 0; i < ROUNDS && !atomic_load(&wrong); i++)
		look(&own, first, count);
	if (mk_close(&own) != MK_DONE)
		atomic_store(&wrong, 1);
	return NULL;
}

int main(void)
{
	pthread_t threads[APART];
	int numbers[APART];
	if (pthread_barrier_init(&all_are_there, NULL, APART) != 0)
		return 2;
	for (int i = 0; i < APART; i++) {
		numbers[i] = i;
		if (pthread_create(&threads[i], NULL, body, &numbers[i]) != 0)
			return 2;
	}
	for (int i = 0; i < APART; i++)
		pthread_join(threads[i], NULL);
	printf("%d\n", APART * ROUNDS);
	return atomic_load(&wrong);
}
