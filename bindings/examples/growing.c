/* A buffer that grows: cgroup.procs is read whole, however many processes there are, also while another thread forks. */
#include <makhloeum.h>
#include <pthread.h>
#include <stdio.h>
#include <stdlib.h>

enum { PROCESSES = 5000 };

/* The text of a file, which the caller frees; NULL if it can't be read. info says why. */
static char *read_whole(mk_handle *h, const char *path, const char *file, mk_info *info)
{
	size_t size = MK_READ_MAX(8);
	for (;;) {
		char *text = malloc(size);
		if (text == NULL)
			return NULL;
		uint32_t status = mk_read(h, path, file, text, size, info);
		if (status == MK_DONE)
			return text;
		free(text);
		if (status != MK_TOO_SMALL)
			return NULL;
		size = info->needed; /* not enough if the other thread forks before the next call */
	}
}

static void *fork_many(void *h)
{
	mk_info info;
	for (int64_t pid = 2; pid <= PROCESSES; pid++)
		if (mk_fork(h, 1, pid, &info) != MK_DONE)
			return NULL;
	return h;
}

/* Reads the pids until all processes are there. Returns how many bytes they take at last, 0 if a read failed or lost one. */
static size_t read_until_all_are_there(mk_handle *h)
{
	mk_info info;
	uint64_t current = 0;
	size_t size = 0;
	while (current < PROCESSES) {
		if (mk_current(h, "/a", &current, &info) != MK_DONE)
			return 0;
		char *text = read_whole(h, "/a", "cgroup.procs", &info);
		if (text == NULL || info.len < size)
			return 0;
		size = info.len;
		free(text);
	}
	return size;
}

int main(void)
{
	mk_handle h = { 0 };
	mk_info info;
	pthread_t thread;
	void *good;
	if (mk_open(&h) != MK_DONE || mk_mkdir(&h, "/a", &info) != MK_DONE || mk_attach(&h, "/a", 1, &info) != MK_DONE)
		return 1;
	if (pthread_create(&thread, NULL, fork_many, &h) != 0)
		return 1;
	size_t size = read_until_all_are_there(&h);
	if (pthread_join(thread, &good) != 0 || good == NULL || size == 0)
		return 1;
	printf("%d processes: %zu bytes\n", PROCESSES, size);
	return mk_close(&h) == MK_DONE ? 0 : 1;
}
