/* A hierarchy that is closed, and its copy, leave no memory behind: each allocation and each free is counted. One that forgets a thousand
   times after a thousand commands needs no more memory than after the first thousand. Link with
   -Wl,--wrap=malloc,--wrap=calloc,--wrap=realloc,--wrap=free. Exits with 1 if something is left, with 3 if memory grows, and
   prints how many hierarchies were opened and closed. */
#include "makhloeum.h"
#include <stdio.h>
#include <stdlib.h>
#include <string.h>
#include <unistd.h>

void *__real_malloc(size_t size);
void *__real_calloc(size_t count, size_t size);
void *__real_realloc(void *at, size_t size);
void __real_free(void *at);
void *__wrap_malloc(size_t size);
void *__wrap_calloc(size_t count, size_t size);
void *__wrap_realloc(void *at, size_t size);
void __wrap_free(void *at);

static long live;

void *__wrap_malloc(size_t size)
{
	void *at = __real_malloc(size);
	live += at != NULL;
	return at;
}

void *__wrap_calloc(size_t count, size_t size)
{
	void *at = __real_calloc(count, size);
	live += at != NULL;
	return at;
}

void *__wrap_realloc(void *at, size_t size)
{
	bool was = at != NULL;
	void *now = __real_realloc(at, size);
	live += !was && now != NULL;
	return now;
}

void __wrap_free(void *at)
{
	live -= at != NULL;
	__real_free(at);
}

static const char *const lines[] = { "mkdir /a", "mkdir /a/b", "fork 1 2", "write /a/b cgroup.procs 2",
	"write /a pids.max 1", "fork 2 3", "cat /a cgroup.procs", "write /a cgroup.kill 1", "undo", "rmdir /a/b" };

static bool use(mk_handle *h)
{
	mk_handle copy = { 0 };
	mk_info info;
	uint8_t out[512];
	if (mk_open(h) != MK_DONE)
		return false;
	for (size_t i = 0; i < sizeof lines / sizeof *lines; i++)
		if (mk_line(h, 1, (const uint8_t *)lines[i], strlen(lines[i]), out, sizeof out, &info) > MK_REFUSED)
			return false;
	/* one group is thawed, one removed, and one stays frozen */
	static const char *const frozen[][2] = { { "/", "mkdir /c" }, { "/", "mkdir /d" }, { "/", "mkdir /e" },
		{ "/c", "1" }, { "/d", "1" }, { "/e", "1" }, { "/c", "0" }, { "/", "rmdir /d" } };
	for (size_t i = 0; i < sizeof frozen / sizeof *frozen; i++) {
		const char *group = frozen[i][0], *text = frozen[i][1];
		bool is_line = group[1] == 0;
		uint32_t status = is_line ? mk_line(h, 1, (const uint8_t *)text, strlen(text), out, sizeof out, &info)
								  : mk_put(h, group, "cgroup.freeze", text, 1, 1, &info);
		if (status != MK_DONE)
			return false;
	}
	return mk_copy(h, &copy) == MK_DONE && mk_close(h) == MK_DONE && mk_close(&copy) == MK_DONE;
}

/* Waits for a list that is longer than the library's own buffer, which changes and then doesn't. */
static bool watch_a_long_file(mk_handle *h)
{
	enum { PROCESSES = 1500 };
	static char text[PROCESSES * 8];
	mk_info info;
	if (mk_open(h) != MK_DONE)
		return false;
	for (int pid = 2; pid < PROCESSES; pid++)
		if (mk_fork(h, 1, pid, &info) != MK_DONE)
			return false;
	bool good = mk_wait_file(h, "/", "cgroup.procs", "", 0, text, sizeof text, &info) == MK_DONE && info.len > 6000;
	good = good && mk_wait_file(h, "/", "cgroup.procs", text, 1, text, sizeof text, &info) == MK_TIMED_OUT;
	good = good && mk_wait_file(h, "/", "cgroup.procs", "", 0, text, 5, &info) == MK_TOO_SMALL;
	return mk_close(h) == MK_DONE && good;
}

/* The resident memory of this process, in bytes; 0 if it cannot be read. */
static long resident(void)
{
	long pages = 0;
	FILE *file = fopen("/proc/self/statm", "r");
	if (file == NULL)
		return 0;
	if (fscanf(file, "%*s %ld", &pages) != 1)
		pages = 0;
	fclose(file);
	return pages * sysconf(_SC_PAGESIZE);
}

/* A thousand limits, and then they are forgotten. */
static bool forget_some(mk_handle *h)
{
	mk_info info;
	size_t depth;
	for (int i = 0; i < 1000; i++)
		if (mk_write(h, "/", "cgroup.max.depth", "7", &info) != MK_DONE)
			return false;
	return mk_depth(h, &depth) == MK_DONE && depth == 1000 && mk_forget(h) == MK_DONE &&
		mk_depth(h, &depth) == MK_DONE && depth == 0;
}

/* How much more memory a million commands take that are forgotten thousand by thousand, than the first thousand; -1 if a
   call fails. A million records take more than 100,000,000 bytes. */
static long grown(void)
{
	mk_handle h = { 0 };
	if (mk_open(&h) != MK_DONE || !forget_some(&h))
		return -1;
	long before = resident();
	for (int i = 1; i < 1000; i++)
		if (!forget_some(&h))
			return -1;
	long after = resident();
	return mk_close(&h) == MK_DONE && before > 0 ? after - before : -1;
}

int main(void)
{
	enum { ROUNDS = 100, ROOM = 2 * 1024 * 1024 };
	mk_handle first = { 0 }, second = { 0 };
	if (!use(&first) || !use(&second) || !watch_a_long_file(&first))
		return 2;
	long before = live; /* the memory of two locks is kept: that of a hierarchy and that of its copy */
	for (int i = 0; i < ROUNDS; i++)
		if (!use(&first) || !use(&second) || (i < 3 && !watch_a_long_file(&first)))
			return 2;
	if (before > 2 || live != before) {
		fprintf(stderr, "leaks.c: %ld allocations are left, and %ld more after %d hierarchies\n", before, live - before,
			2 * ROUNDS);
		return 1;
	}
	long more = grown();
	if (more < 0 || more > ROOM) {
		fprintf(stderr, "leaks.c: %ld bytes more after a million forgotten commands\n", more);
		return 3;
	}
	printf("%d\n", 2 * ROUNDS);
	return 0;
}
