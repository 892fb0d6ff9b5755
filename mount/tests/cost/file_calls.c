/* file_calls DIRECTORY FILE-TO-READ FILE-TO-WRITE VALUE [GROUP]: microseconds for one call each, the best of two hundred runs of a hundred. */
#include <fcntl.h>
#include <stdio.h>
#include <stdlib.h>
#include <string.h>
#include <sys/stat.h>
#include <time.h>
#include <unistd.h>

enum { CALLS = 100, RUNS = 200 };

static const char *directory, *value, *group;
static int reads, writes;

static void stat_it(void)
{
	struct stat st;
	if (stat(directory, &st))
		exit(1);
}

static void read_it(void)
{
	char text[4096];
	if (pread(reads, text, sizeof text, 0) <= 0)
		exit(1);
}

static void write_it(void)
{
	if (write(writes, value, strlen(value)) < 0)
		exit(1);
}

static const char *to_read;

static void open_it(void)
{
	char text[4096];
	int fd = open(to_read, O_RDONLY);
	if (fd < 0 || read(fd, text, sizeof text) <= 0 || close(fd))
		exit(1);
}

static void make_it(void)
{
	if (mkdir(group, 0755) || rmdir(group))
		exit(1);
}

static double once(void (*call)(void))
{
	struct timespec from, to;
	clock_gettime(CLOCK_MONOTONIC, &from);
	for (int i = 0; i < CALLS; i++)
		call();
	clock_gettime(CLOCK_MONOTONIC, &to);
	return ((double)(to.tv_sec - from.tv_sec) * 1e6 + (double)(to.tv_nsec - from.tv_nsec) / 1e3) / CALLS;
}

static void measure(const char *name, void (*call)(void))
{
	double best = 1e9;
	for (int i = 0; i < RUNS; i++) {
		double took = once(call);
		if (took < best)
			best = took;
	}
	printf("%-28s %6.1f\n", name, best);
}

int main(int argc, char **argv)
{
	if (argc < 5 || chdir(argv[1]))
		return 2;
	directory = argv[1];
	to_read = argv[2];
	value = argv[4];
	group = argc > 5 ? argv[5] : NULL;
	reads = open(argv[2], O_RDONLY);
	writes = open(argv[3], O_WRONLY);
	if (reads < 0 || writes < 0)
		return 1;
	measure("stat of the directory", stat_it);
	measure("read", read_it);
	measure("write", write_it);
	measure("open, read, close", open_it);
	if (group)
		measure("mkdir and rmdir", make_it);
	return 0;
}
