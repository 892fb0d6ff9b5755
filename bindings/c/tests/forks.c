/* What a fork costs: among how many processes, among how many groups, and how deep. 1,000 forks are timed and then undone; the
   best of 200 such rounds counts, in nanoseconds of processor time for one fork. bindings/bench builds and runs it. */
#include "makhloeum.h"
#include <stdio.h>
#include <stdlib.h>
#include <string.h>
#include <time.h>

enum { FORKS = 1000, ROUNDS = 200, DEPTHS = 32 };

static void require(bool good, const char *what)
{
	if (good)
		return;
	fprintf(stderr, "forks: %s\n", what);
	exit(1);
}

static double now(void)
{
	struct timespec t;
	clock_gettime(CLOCK_THREAD_CPUTIME_ID, &t);
	return (double)t.tv_sec * 1e9 + (double)t.tv_nsec;
}

/* A hierarchy with so many groups in /, and so many processes in turn in these. */
static void fill(mk_handle *h, int groups, int processes)
{
	mk_info info;
	char path[32];
	require(mk_open(h) == MK_DONE, "open");
	for (int i = 0; i < groups; i++) {
		snprintf(path, sizeof path, "/g%d", i);
		require(mk_mkdir(h, path, &info) == MK_DONE && mk_fork(h, 1, i + 2, &info) == MK_DONE &&
				mk_attach(h, path, i + 2, &info) == MK_DONE,
			path);
	}
	for (int i = groups; i < processes; i++)
		require(mk_fork(h, i % groups + 2, i + 2, &info) == MK_DONE, "a fork");
	require(mk_forget(h) == MK_DONE, "forget");
}

/* Nanoseconds for a fork by processes 2 to last, chosen at random or always the first. */
static double cost(mk_handle *h, int last, bool at_random)
{
	mk_info info;
	double best = 1e18;
	uint64_t seed = 1;
	size_t mark;
	require(mk_depth(h, &mark) == MK_DONE, "depth");
	for (int round = 0; round < ROUNDS; round++) {
		int parents[FORKS];
		for (int i = 0; i < FORKS; i++) {
			seed = seed * 6364136223846793005U + 1442695040888963407U;
			parents[i] = at_random ? 2 + (int)((seed >> 33) % (uint64_t)(last - 1)) : 2;
		}
		double from = now();
		for (int i = 0; i < FORKS; i++)
			require(mk_fork(h, parents[i], last + 1 + i, &info) == MK_DONE, "a fork");
		double took = (now() - from) / FORKS;
		require(mk_undo_to(h, mark, &info) == MK_DONE, "undo");
		if (took < best)
			best = took;
	}
	return best;
}

int main(void)
{
	static const struct {
		int groups, processes;
	} fills[] = { { 10, 1000 }, { 10, 100000 }, { 10, 4000000 }, { 1024, 2000 }, { 1024, 4000000 } };
	for (size_t i = 0; i < sizeof fills / sizeof *fills; i++) {
		mk_handle h = { 0 };
		fill(&h, fills[i].groups, fills[i].processes);
		int last = fills[i].processes + 1;
		printf("%8d processes in %5d groups: %4.0f ns by one parent, %4.0f ns by parents at random\n",
			fills[i].processes, fills[i].groups, cost(&h, last, false), cost(&h, last, true));
		mk_close(&h);
	}
	mk_handle h = { 0 };
	mk_info info;
	char path[DEPTHS * 2 + 1] = "";
	require(mk_open(&h) == MK_DONE && mk_fork(&h, 1, 2, &info) == MK_DONE, "open");
	printf("depth:");
	for (int depth = 1; depth <= DEPTHS; depth++) {
		strcat(path, "/a");
		require(mk_mkdir(&h, path, &info) == MK_DONE && mk_attach(&h, path, 2, &info) == MK_DONE &&
				mk_forget(&h) == MK_DONE,
			path);
		printf(" %.0f", cost(&h, 2, false));
	}
	printf(" ns\n");
	return 0;
}
