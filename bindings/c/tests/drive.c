/* Plays a trace from standard input line by line and prints the answers; with `bench` it measures calls instead. */
#include "makhloeum.h"
#include <stdio.h>
#include <stdlib.h>
#include <string.h>
#include <sys/types.h>
#include <time.h>

static uint8_t out[1 << 20];
static mk_handle h;
static mk_info info;

static uint32_t ask(const char *line)
{
	return mk_line(&h, 1, (const uint8_t *)line, strlen(line), out, sizeof out, &info);
}

static double now(void)
{
	struct timespec t;
	clock_gettime(CLOCK_MONOTONIC, &t);
	return (double)t.tv_sec + (double)t.tv_nsec / 1e9;
}

static int bench(void)
{
	const int n = 1000000;
	if (ask("mkdir /a") != MK_DONE || ask("fork 1 2") != MK_DONE || ask("write /a cgroup.procs 2") != MK_DONE)
		return 2;
	for (int round = 0; round < 3; round++) {
		double start = now();
		for (int i = 0; i < n; i++)
			if (ask("cat /a pids.current") != MK_DONE)
				return 3;
		double cat = now() - start;
		start = now();
		for (int i = 0; i < n; i++)
			if (ask("fork 2 3") != MK_DONE || mk_undo(&h, 1, out, sizeof out, &info) != MK_DONE)
				return 4;
		double pair = now() - start;
		printf("C: %.2f million cats a second; %.2f million forks with their undos a second\n", n / cat / 1e6,
			n / pair / 1e6);
	}
	return 0;
}

static int play(void)
{
	char *line = NULL;
	size_t room = 0;
	uint64_t number = 1;
	int failed = 0;
	for (ssize_t read; failed == 0 && (read = getline(&line, &room, stdin)) > 0;) {
		size_t len = (size_t)read - (line[read - 1] == '\n');
		uint32_t status = mk_line(&h, number, (const uint8_t *)line, len, out, sizeof out, &info);
		if (status == MK_SKIPPED)
			continue;
		if (status > MK_FAULT)
			failed = 5;
		fwrite(out, 1, info.len, stdout);
		number++;
	}
	free(line);
	return failed;
}

int main(int argc, char **argv)
{
	if (mk_open(&h) != MK_DONE)
		return 1;
	int failed = argc > 1 && strcmp(argv[1], "bench") == 0 ? bench() : play();
	return mk_close(&h) == MK_DONE ? failed : 6;
}
