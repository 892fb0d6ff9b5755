/* Calls per second: the proved calls without a lock, the public ones, threads that share a handle and threads with one each, and
   a sweep over all groups. Best of ten rounds, in processor time; with threads in real time. bindings/bench builds and runs it. */
#include "makhloeum.h"
#include "proved.h"
#include <pthread.h>
#include <stdio.h>
#include <stdlib.h>
#include <string.h>
#include <time.h>

enum { ROUNDS = 10, CALLS = 200000, THREADS = 4, GROUPS = 1024, PROCESSES = 100000 };

static const uint8_t cat[] = "cat /a pids.current", begun[] = "fork 2 3", undo[] = "undo";
static const char *const start[] = { "mkdir /a", "fork 1 2", "write /a cgroup.procs 2" };

static void require(bool good, const char *what)
{
	if (good)
		return;
	fprintf(stderr, "bench: %s\n", what);
	exit(1);
}

static double now(clockid_t clock)
{
	struct timespec t;
	clock_gettime(clock, &t);
	return (double)t.tv_sec + (double)t.tv_nsec / 1e9;
}

static double best_by(clockid_t clock, void (*round)(void *), void *with)
{
	double best = 1e9;
	for (int i = 0; i < ROUNDS; i++) {
		double from = now(clock);
		round(with);
		double took = now(clock) - from;
		if (took < best)
			best = took;
	}
	return best;
}

static double best_of(void (*round)(void *), void *with)
{
	return best_by(CLOCK_THREAD_CPUTIME_ID, round, with);
}

static void say(const char *what, double seconds, int calls)
{
	printf("%-58s %11.0f a second\n", what, calls / seconds);
}

/* ---- without a lock */

static bool ask_proved(mk0_handle *engine, const uint8_t *line, size_t len)
{
	uint8_t out[512];
	mk0_info told;
	return mk0_line(engine, 1, line, len, out, sizeof out, &told) == MK_DONE;
}

static void proved_cats(void *engine)
{
	for (int i = 0; i < CALLS; i++)
		require(ask_proved(engine, cat, sizeof cat - 1), "cat");
}

static void proved_pairs(void *engine)
{
	for (int i = 0; i < CALLS; i++)
		require(ask_proved(engine, begun, sizeof begun - 1) && ask_proved(engine, undo, sizeof undo - 1),
			"fork and undo");
}

/* ---- with the lock */

static bool ask(mk_handle *h, const uint8_t *line, size_t len)
{
	uint8_t out[512];
	mk_info info;
	return mk_line(h, 1, line, len, out, sizeof out, &info) == MK_DONE;
}

static void cats(void *h)
{
	for (int i = 0; i < CALLS; i++)
		require(ask(h, cat, sizeof cat - 1), "cat");
}

static void pairs(void *h)
{
	for (int i = 0; i < CALLS; i++)
		require(ask(h, begun, sizeof begun - 1) && ask(h, undo, sizeof undo - 1), "fork and undo");
}

static void numbers(void *h)
{
	mk_info info;
	uint64_t value;
	for (int i = 0; i < CALLS; i++)
		require(mk_current(h, "/a", &value, &info) == MK_DONE && value == 1, "mk_current");
}

static void *cats_of_thread(void *h)
{
	cats(h);
	return NULL;
}

struct threads {
	mk_handle *of[THREADS];
};

static void together(void *with)
{
	struct threads *all = with;
	pthread_t threads[THREADS];
	for (int i = 0; i < THREADS; i++)
		require(pthread_create(&threads[i], NULL, cats_of_thread, all->of[i]) == 0, "a thread");
	for (int i = 0; i < THREADS; i++)
		require(pthread_join(threads[i], NULL) == 0, "a thread");
}

static void begin(mk_handle *h)
{
	require(mk_open(h) == MK_DONE, "open");
	for (size_t i = 0; i < sizeof start / sizeof *start; i++)
		require(ask(h, (const uint8_t *)start[i], strlen(start[i])), start[i]);
}

/* ---- a sweep */

static char names[GROUPS * 64], texts_of[GROUPS * 64];
static char paths[GROUPS][16];

static void sweep_singly(void *h)
{
	mk_info info;
	uint64_t value, sum = 0;
	for (int i = 0; i < GROUPS; i++) {
		require(mk_current(h, paths[i], &value, &info) == MK_DONE, "mk_current");
		sum += value;
	}
	require(sum == PROCESSES, "a sum");
}

static void sweep_at_once(void *h)
{
	static mk_text texts[GROUPS];
	mk_info info;
	uint64_t sum = 0;
	require(mk_read_many(h, names, GROUPS, texts, texts_of, sizeof texts_of, &info) == MK_DONE, "mk_read_many");
	for (int i = 0; i < GROUPS; i++)
		sum += strtoull(texts_of + texts[i].at, NULL, 10);
	require(sum == PROCESSES, "a sum");
}

static void fill(mk_handle *h)
{
	mk_info info;
	size_t len = 0;
	require(mk_open(h) == MK_DONE, "open");
	for (int i = 0; i < GROUPS; i++) {
		snprintf(paths[i], sizeof paths[i], "/g%d", i);
		len += (size_t)snprintf(names + len, sizeof names - len, "%s", paths[i]) + 1;
		len += (size_t)snprintf(names + len, sizeof names - len, "pids.current") + 1;
		require(mk_mkdir(h, paths[i], &info) == MK_DONE, paths[i]);
	}
	for (int i = 0; i < PROCESSES; i++)
		require(mk_fork(h, 1, i + 2, &info) == MK_DONE && mk_attach(h, paths[i % GROUPS], i + 2, &info) == MK_DONE,
			"a process");
}

int main(void)
{
	mk0_handle engine = { 0 };
	mk_handle own[THREADS] = { { 0 } }, full = { 0 };
	struct threads shared, apart;
	require(mk0_open(&engine) == MK_DONE, "open");
	for (size_t i = 0; i < sizeof start / sizeof *start; i++)
		require(ask_proved(&engine, (const uint8_t *)start[i], strlen(start[i])), start[i]);
	for (int i = 0; i < THREADS; i++) {
		begin(&own[i]);
		shared.of[i] = &own[0];
		apart.of[i] = &own[i];
	}
	say("C, cats without a lock (mk0_line)", best_of(proved_cats, &engine), CALLS);
	say("C, cats (mk_line)", best_of(cats, &own[0]), CALLS);
	say("C, numbers (mk_current)", best_of(numbers, &own[0]), CALLS);
	say("C, forks with their undos without a lock", best_of(proved_pairs, &engine), CALLS);
	say("C, forks with their undos", best_of(pairs, &own[0]), CALLS);
	say("C, cats by four threads that share a handle", best_by(CLOCK_MONOTONIC, together, &shared), THREADS * CALLS);
	say("C, cats by four threads with a handle each", best_by(CLOCK_MONOTONIC, together, &apart), THREADS * CALLS);
	fill(&full);
	printf("%-58s %11.3f ms\n", "C, a sweep over 1,024 groups, mk_current for each",
		1e3 * best_of(sweep_singly, &full));
	printf("%-58s %11.3f ms\n", "C, a sweep over 1,024 groups, one mk_read_many", 1e3 * best_of(sweep_at_once, &full));
	return 0;
}
