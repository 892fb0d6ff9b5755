/*
 * Refuses one call of a program that is linked to the C library, as a library that is loaded before it:
 *
 *   REFUSE=allocation N    the N-th malloc, calloc or realloc, from 1
 *   REFUSE=allocations N   that one and all behind it
 *   REFUSE=thread N        the N-th start of a thread, which fails with EAGAIN
 *   REFUSE=threads N       that one and all behind it
 *   REFUSE=read N          the N-th read of standard input, which fails with EIO
 *   REFUSE=interrupted N   that read, which fails with EINTR
 *   REFUSE=write N         the N-th write to standard output, which fails with EIO
 *   SIZED=N                allocations of N bytes alone are counted and refused
 *   COUNTED=FILE           how many allocations there were stands there afterwards, in eight bytes
 *   STARTED=FILE           the same for thread starts
 *   READS=FILE             the same for reads of standard input
 *   SHARES=FILE            a line for each thread that was started and has ended: its place among the starts, how many
 *                          allocations of SIZED bytes it made, and the size of its largest allocation
 *   BYTEWISE=1             each read and each write takes one byte
 *   LOOKED=FILE            a line for each of a thread's first LOOKS calls of sched_yield, with the thread's number, its
 *                          allocations so far, and the sum of the words in all allocations of SIZED bytes; and a line of
 *                          this form for each start of a thread
 */
#define _GNU_SOURCE
#include <dlfcn.h>
#include <errno.h>
#include <fcntl.h>
#include <pthread.h>
#include <sched.h>
#include <stdatomic.h>
#include <stdbool.h>
#include <stdint.h>
#include <stdio.h>
#include <stdlib.h>
#include <string.h>
#include <sys/mman.h>
#include <sys/syscall.h>
#include <unistd.h>

void *__libc_malloc(size_t size);
void *__libc_calloc(size_t count, size_t size);
void *__libc_realloc(void *old, size_t size);
void __libc_free(void *old);

/* A test hook that waits calls sched_yield often. */
enum { LOOKS = 64, WATCHED = 4 };

enum refused { NOTHING, ALLOCATION, ALLOCATIONS, THREAD, THREADS, READ, INTERRUPTED, WRITE };

static enum refused refused;
static unsigned long place;
static size_t sized;
static bool bytewise;
static atomic_ulong own_allocations, own_threads, own_reads, writes;
static atomic_ulong *allocations = &own_allocations, *threads = &own_threads, *reads = &own_reads;
static int looked = -1, shares = -1;
/* the allocations of SIZED bytes, if LOOKED is set */
static _Atomic(uint64_t *) watched[WATCHED];
static __thread unsigned long thread_allocations __attribute__((tls_model("initial-exec")));
static __thread unsigned long thread_looks __attribute__((tls_model("initial-exec")));
static __thread unsigned long thread_sized __attribute__((tls_model("initial-exec")));
static __thread size_t thread_largest __attribute__((tls_model("initial-exec")));
static int (*create_thread)(pthread_t *, const pthread_attr_t *, void *(*)(void *), void *);

/* The program ends without destructors, so the count lies in the file from the start. */
static atomic_ulong *counter_in(const char *file)
{
	int descriptor = open(file, O_RDWR | O_CREAT | O_TRUNC, 0644);
	void *at;

	if (descriptor < 0 || ftruncate(descriptor, sizeof own_threads) != 0)
		_exit(99);
	at = mmap(NULL, sizeof own_threads, PROT_READ | PROT_WRITE, MAP_SHARED, descriptor, 0);
	if (at == MAP_FAILED)
		_exit(99);
	return at;
}

static int lines_in(const char *file)
{
	int descriptor = open(file, O_WRONLY | O_CREAT | O_TRUNC | O_APPEND, 0644);

	if (descriptor < 0)
		_exit(99);
	return descriptor;
}

__attribute__((constructor)) static void read_plan(void)
{
	static const struct {
		const char *word;
		enum refused what;
	} words[] = {
		{ "allocation ", ALLOCATION },
		{ "allocations ", ALLOCATIONS },
		{ "thread ", THREAD },
		{ "threads ", THREADS },
		{ "read ", READ },
		{ "interrupted ", INTERRUPTED },
		{ "write ", WRITE },
	};
	const char *plan = getenv("REFUSE");

	*(void **)&create_thread = dlsym(RTLD_NEXT, "pthread_create");
	if (create_thread == NULL)
		_exit(99);
	bytewise = getenv("BYTEWISE") != NULL;
	for (size_t i = 0; plan != NULL && i < sizeof words / sizeof *words; i++) {
		size_t length = strlen(words[i].word);

		if (strncmp(plan, words[i].word, length) == 0) {
			refused = words[i].what;
			place = strtoul(plan + length, NULL, 10);
		}
	}
	if (getenv("SIZED") != NULL)
		sized = strtoul(getenv("SIZED"), NULL, 10);
	if (getenv("COUNTED") != NULL)
		allocations = counter_in(getenv("COUNTED"));
	if (getenv("STARTED") != NULL)
		threads = counter_in(getenv("STARTED"));
	if (getenv("READS") != NULL)
		reads = counter_in(getenv("READS"));
	if (getenv("LOOKED") != NULL)
		looked = lines_in(getenv("LOOKED"));
	if (getenv("SHARES") != NULL)
		shares = lines_in(getenv("SHARES"));
	atomic_store(allocations, 0);
	atomic_store(threads, 0);
	atomic_store(reads, 0);
}

static bool no_memory(size_t size)
{
	unsigned long now;
	bool is_refused;

	thread_allocations++;
	if (size > thread_largest)
		thread_largest = size;
	if (sized != 0 && size != sized)
		return false;
	thread_sized++;
	now = atomic_fetch_add(allocations, 1) + 1;
	is_refused = (refused == ALLOCATION && now == place) || (refused == ALLOCATIONS && now >= place);
	if (is_refused)
		errno = ENOMEM;
	return is_refused;
}

static void replace_watched(void *old, void *new)
{
	for (int i = 0; i < WATCHED; i++) {
		uint64_t *expected = old;

		if (atomic_compare_exchange_strong(&watched[i], &expected, new))
			return;
	}
}

static void *watch(void *at, size_t size)
{
	if (looked >= 0 && size == sized && at != NULL)
		replace_watched(NULL, at);
	return at;
}

static void forget(void *at)
{
	if (looked >= 0 && at != NULL)
		replace_watched(at, NULL);
}

void *malloc(size_t size)
{
	return no_memory(size) ? NULL : watch(__libc_malloc(size), size);
}

void *calloc(size_t count, size_t size)
{
	return no_memory(count * size) ? NULL : watch(__libc_calloc(count, size), count * size);
}

void *realloc(void *old, size_t size)
{
	if (no_memory(size))
		return NULL;
	forget(old);
	return watch(__libc_realloc(old, size), size);
}

void free(void *old)
{
	forget(old);
	__libc_free(old);
}

static void look(const char *at)
{
	uint64_t sum = 0;
	char line[96];
	int length;

	if (looked < 0)
		return;
	for (int i = 0; i < WATCHED; i++) {
		volatile uint64_t *words = atomic_load(&watched[i]);

		for (size_t n = 0; words != NULL && n < sized / sizeof *words; n++)
			sum += words[n];
	}
	length = snprintf(line, sizeof line, "%s %ld %lu %lu\n", at, syscall(SYS_gettid) - getpid(), thread_allocations,
		(unsigned long)sum);
	if (syscall(SYS_write, looked, line, length) != length)
		_exit(99);
}

int sched_yield(void)
{
	if (thread_looks++ < LOOKS)
		look("yield");
	return syscall(SYS_sched_yield);
}

/* What a thread was started for, and its place among the starts. */
struct work {
	void *(*start)(void *);
	void *argument;
	unsigned long place;
};

static void *do_work(void *at)
{
	struct work work = *(struct work *)at;
	void *result;
	char line[96];
	int length;

	__libc_free(at);
	result = work.start(work.argument);
	length = snprintf(line, sizeof line, "%lu %lu %zu\n", work.place, thread_sized, thread_largest);
	if (syscall(SYS_write, shares, line, length) != length)
		_exit(99);
	return result;
}

int pthread_create(pthread_t *thread, const pthread_attr_t *attributes, void *(*start)(void *), void *argument)
{
	unsigned long now = atomic_fetch_add(threads, 1) + 1;

	look("start");
	if ((refused == THREAD && now == place) || (refused == THREADS && now >= place))
		return EAGAIN;
	if (shares >= 0) {
		struct work *work = __libc_malloc(sizeof *work);

		if (work == NULL)
			_exit(99);
		*work = (struct work){ start, argument, now };
		return create_thread(thread, attributes, do_work, work);
	}
	return create_thread(thread, attributes, start, argument);
}

/* What the next of these calls fails with, or 0. */
static int failure(enum refused what, atomic_ulong *calls)
{
	if (atomic_fetch_add(calls, 1) + 1 != place)
		return 0;
	if (what == READ && refused == INTERRUPTED)
		return EINTR;
	return refused == what ? EIO : 0;
}

static bool fails(enum refused what, atomic_ulong *calls)
{
	int why = failure(what, calls);

	if (why != 0)
		errno = why;
	return why != 0;
}

ssize_t read(int descriptor, void *to, size_t size)
{
	if (descriptor == STDIN_FILENO) {
		if (fails(READ, reads))
			return -1;
		if (bytewise && size > 1)
			size = 1;
	}
	return syscall(SYS_read, descriptor, to, size);
}

ssize_t write(int descriptor, const void *from, size_t size)
{
	if (descriptor == STDOUT_FILENO) {
		if (fails(WRITE, &writes))
			return -1;
		if (bytewise && size > 1)
			size = 1;
	}
	return syscall(SYS_write, descriptor, from, size);
}
