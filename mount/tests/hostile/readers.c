/* readers WHAT ..: programs that read /proc/self/cgroup while something is short or comes in between, for meddling.py. Each runs
   in a group /a, and prints how many calls answered what they must not. */
#include <errno.h>
#include <fcntl.h>
#include <pthread.h>
#include <stdatomic.h>
#include <stdbool.h>
#include <stdio.h>
#include <stdlib.h>
#include <string.h>
#include <sys/resource.h>
#include <sys/wait.h>
#include <time.h>
#include <unistd.h>

static atomic_int wrong, right;
static atomic_bool stop;

static double now(void)
{
	struct timespec t;
	clock_gettime(CLOCK_MONOTONIC, &t);
	return (double)t.tv_sec + (double)t.tv_nsec / 1e9;
}

/* Counts a text that is not the group's. `may_fail`: an open may find no descriptor. */
static void read_once(bool may_fail)
{
	char text[64] = "";
	int fd = open("/proc/self/cgroup", O_RDONLY);
	if (fd < 0 && may_fail && errno == EMFILE)
		return;
	bool is_right = fd >= 0 && read(fd, text, sizeof text - 1) > 0 && strcmp(text, "0::/a\n") == 0;
	if (fd >= 0)
		close(fd);
	atomic_fetch_add(is_right ? &right : &wrong, 1);
}

static int tell(void)
{
	printf("%d %d\n", wrong, right > 0);
	return 0;
}

/* ---------------------------------------------------------------- many readers */

static void *read_on(void *unused)
{
	(void)unused;
	while (!stop)
		read_once(false);
	return NULL;
}

/* This number of threads read in parallel. */
static int crowd(int count)
{
	pthread_t *threads = calloc((size_t)count, sizeof *threads);
	for (int i = 0; i < count; i++)
		if (!threads || pthread_create(&threads[i], NULL, read_on, NULL))
			return 1;
	for (double end = now() + 1; now() < end || !right;)
		usleep(10000);
	stop = true;
	for (int i = 0; i < count; i++)
		pthread_join(threads[i], NULL);
	free(threads);
	return tell();
}

/* ---------------------------------------------------------------- no descriptor is left */

static void *take_the_last(void *unused)
{
	(void)unused;
	while (!stop) {
		int fd = dup(0);
		for (int i = 0; i < 50; i++)
			__asm__ volatile("" ::: "memory");
		if (fd >= 0)
			close(fd);
	}
	return NULL;
}

static int descriptors(void)
{
	struct rlimit few = { 8, 8 };
	pthread_t threads[2];
	setrlimit(RLIMIT_NOFILE, &few);
	for (int fd; (fd = dup(0)) >= 0;)
		if (fd == 6)
			break;
	for (int i = 0; i < 2; i++)
		pthread_create(&threads[i], NULL, take_the_last, NULL);
	for (double end = now() + 1; now() < end || !right;)
		read_once(true);
	stop = true;
	for (int i = 0; i < 2; i++)
		pthread_join(threads[i], NULL);
	return tell();
}

/* ---------------------------------------------------------------- threads */

static void *nothing(void *unused)
{
	return unused;
}

/* How many of twenty threads and twenty children cannot be made. */
static int threads(void)
{
	pthread_t thread;
	for (int i = 0; i < 20; i++) {
		bool made = pthread_create(&thread, NULL, nothing, NULL) == 0;
		if (made)
			pthread_join(thread, NULL);
		pid_t pid = fork();
		if (pid == 0)
			_exit(0);
		made = pid > 0 && waitpid(pid, NULL, 0) == pid && made;
		atomic_fetch_add(made ? &right : &wrong, 1);
	}
	return tell();
}

int main(int argc, char **argv)
{
	const char *what = argc > 1 ? argv[1] : "";
	if (strcmp(what, "crowd") == 0)
		return crowd(argc > 2 ? atoi(argv[2]) : 1);
	if (strcmp(what, "descriptors") == 0)
		return descriptors();
	if (strcmp(what, "threads") == 0)
		return threads();
	return 2;
}
