/* traced_calls: microseconds for what a supervisor sees, the best of sixty runs of fifty. */
#include <fcntl.h>
#include <pthread.h>
#include <stdio.h>
#include <stdlib.h>
#include <sys/statfs.h>
#include <sys/wait.h>
#include <time.h>
#include <unistd.h>

enum { CALLS = 50, RUNS = 60 };

static void open_it(void)
{
	int fd = open("/etc/passwd", O_RDONLY);
	if (fd < 0 || close(fd))
		exit(1);
}

static void statfs_it(void)
{
	struct statfs st;
	if (statfs("/", &st))
		exit(1);
}

static void fork_it(void)
{
	pid_t pid = fork();
	if (pid == 0)
		_exit(0);
	if (pid < 0 || waitpid(pid, NULL, 0) != pid)
		exit(1);
}

static void *end_at_once(void *unused)
{
	return unused;
}

static void thread_it(void)
{
	pthread_t thread;
	if (pthread_create(&thread, NULL, end_at_once, NULL) || pthread_join(thread, NULL))
		exit(1);
}

static void measure(const char *name, void (*call)(void))
{
	double best = 1e9;
	for (int run = 0; run < RUNS; run++) {
		struct timespec from, to;
		clock_gettime(CLOCK_MONOTONIC, &from);
		for (int i = 0; i < CALLS; i++)
			call();
		clock_gettime(CLOCK_MONOTONIC, &to);
		double took = ((double)(to.tv_sec - from.tv_sec) * 1e6 + (double)(to.tv_nsec - from.tv_nsec) / 1e3) / CALLS;
		if (took < best)
			best = took;
	}
	printf("%-28s %6.1f\n", name, best);
}

int main(void)
{
	measure("open to read, close", open_it);
	measure("statfs", statfs_it);
	measure("fork, exit, wait", fork_it);
	measure("thread, join", thread_it);
	return 0;
}
