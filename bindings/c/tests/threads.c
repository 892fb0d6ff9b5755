/* A handle that threads share, signal handlers interrupt and forks copy.
 *   threads PART SECONDS
 * PART is one of own, mixed, close, wait, copy, signal, fork. Exits with 1 at the first check that fails; prints how many held. */
#include "makhloeum.h"
#include <pthread.h>
#include <signal.h>
#include <stdarg.h>
#include <stdatomic.h>
#include <stdio.h>
#include <stdlib.h>
#include <string.h>
#include <sys/wait.h>
#include <time.h>
#include <unistd.h>

enum { THREADS = 4, OUT = 16384 };

static mk_handle h;
static atomic_bool stopped;
static atomic_long held, begun;

/* ends by SIGALRM what hangs in the child of a fork */
enum { PATIENCE_SECONDS = 300 };

#define CHECK(holds)                                                 \
	do {                                                             \
		if (!(holds)) {                                              \
			fprintf(stderr, "threads.c:%d: %s\n", __LINE__, #holds); \
			_exit(1);                                                \
		}                                                            \
		atomic_fetch_add_explicit(&held, 1, memory_order_relaxed);   \
	} while (0)

struct asked {
	uint32_t status;
	mk_info info;
	char out[OUT];
};

__attribute__((format(printf, 2, 3))) static uint32_t ask(struct asked *it, const char *format, ...)
{
	char line[256];
	va_list words;
	va_start(words, format);
	int len = vsnprintf(line, sizeof line, format, words);
	va_end(words);
	it->status = mk_line(&h, 7, (const uint8_t *)line, (size_t)len, (uint8_t *)it->out, OUT - 1, &it->info);
	it->out[it->info.len] = 0;
	return it->status;
}

static bool says(const struct asked *it, const char *text)
{
	return strcmp(it->out, text) == 0;
}

static double now(void)
{
	struct timespec t;
	clock_gettime(CLOCK_MONOTONIC, &t);
	return (double)t.tv_sec + (double)t.tv_nsec / 1e9;
}

static void pause_for(double seconds)
{
	struct timespec t = { .tv_sec = (time_t)seconds, .tv_nsec = (long)((seconds - (double)(time_t)seconds) * 1e9) };
	nanosleep(&t, NULL);
}

/* Each thread gets its number. */
static void start_threads(pthread_t threads[THREADS], void *(*body)(void *))
{
	static int numbers[THREADS];
	for (int i = 0; i < THREADS; i++) {
		numbers[i] = i;
		CHECK(pthread_create(&threads[i], NULL, body, &numbers[i]) == 0);
	}
}

static void join_threads(const pthread_t threads[THREADS])
{
	for (int i = 0; i < THREADS; i++)
		CHECK(pthread_join(threads[i], NULL) == 0);
}

static void run_threads(void *(*body)(void *), double seconds)
{
	pthread_t threads[THREADS];
	atomic_store(&stopped, false);
	start_threads(threads, body);
	pause_for(seconds);
	atomic_store(&stopped, true);
	join_threads(threads);
}

/* ---- each thread has its own group: only this thread changes the group, so it knows each answer */

static void one_round(struct asked *it, int own, int pid)
{
	char want[64];
	CHECK(ask(it, "fork %d %d", own, pid) == MK_DONE && says(it, "7 ok\n"));
	CHECK(ask(it, "cat /t%d pids.current", own) == MK_DONE && says(it, "7 ok\n| 2\n"));
	snprintf(want, sizeof want, "7 ok\n| %d\n| %d\n", own, pid);
	CHECK(ask(it, "cat /t%d cgroup.procs", own) == MK_DONE && says(it, want));
	CHECK(ask(it, "write /t%d pids.max 2", own) == MK_DONE);
	CHECK(
		ask(it, "fork %d %d", own, pid + 1) == MK_REFUSED && it->info.code == MK_PIDS_MAX && it->info.error == EAGAIN);
	snprintf(want, sizeof want, "7 ok\n| 0::/t%d\n", own);
	CHECK(ask(it, "where %d", pid) == MK_DONE && says(it, want));
	CHECK(ask(it, "mkdir /t%d/below", own) == MK_DONE);
	char path[32];
	snprintf(path, sizeof path, "/t%d", own);
	it->status = mk_children(&h, (const uint8_t *)path, strlen(path), (uint8_t *)it->out, OUT, &it->info);
	CHECK(it->status == MK_DONE && it->info.count == 1 && it->info.len == 6 && memcmp(it->out, "below", 6) == 0);
	CHECK(ask(it, "rmdir /t%d", own) == MK_REFUSED && it->info.code == MK_HAS_CHILDREN);
	CHECK(ask(it, "rmdir /t%d/below", own) == MK_DONE);
	CHECK(ask(it, "write /t%d pids.max max", own) == MK_DONE);
	CHECK(ask(it, "exit %d", pid) == MK_DONE && ask(it, "cat /t%d pids.current", own) == MK_DONE &&
		says(it, "7 ok\n| 1\n"));
}

static void *own_group(void *number)
{
	struct asked it;
	int own = 10 + *(int *)number;
	CHECK(ask(&it, "mkdir /t%d", own) == MK_DONE && ask(&it, "fork 1 %d", own) == MK_DONE);
	CHECK(ask(&it, "write /t%d cgroup.procs %d", own, own) == MK_DONE);
	long rounds = 0;
	for (; !atomic_load(&stopped); rounds++)
		one_round(&it, own, own * 1000);
	char want[64];
	snprintf(want, sizeof want, "7 ok\n| max %ld\n", rounds);
	CHECK(ask(&it, "cat /t%d pids.events", own) == MK_DONE && says(&it, want));
	return NULL;
}

static void own(double seconds)
{
	run_threads(own_group, seconds);
}

/* ---- anything in parallel: undoing all of it must restore the start */

static void *anything(void *number)
{
	struct asked it;
	unsigned seed = 17u * (unsigned)*(int *)number + 1;
	static const char *const lines[] = { "mkdir /a", "mkdir /a/b", "rmdir /a/b", "fork 1 2", "fork 1 3", "fork 2 4",
		"exit 3", "write /a/b cgroup.procs 2", "write /a cgroup.procs 3", "write /a pids.max 1", "undo",
		"write /a pids.max max", "write /a cgroup.kill 1", "cat /a pids.current", "undo", "cat /a cgroup.procs",
		"where 2", "rmdir /a", "mkdir a", "undo" };
	while (!atomic_load(&stopped)) {
		seed = seed * 1103515245u + 12345u;
		uint32_t status = ask(&it, "%s", lines[(seed >> 16) % (sizeof lines / sizeof *lines)]);
		CHECK(
			status <= MK_FAULT && it.info.len > 0 && it.out[it.info.len - 1] == '\n' && strncmp(it.out, "7 ", 2) == 0);
	}
	return NULL;
}

static void undo_everything(struct asked *it)
{
	size_t depth = 0;
	CHECK(mk_depth(&h, &depth) == MK_DONE);
	for (; depth > 0; depth--)
		CHECK(ask(it, "undo") == MK_DONE);
	CHECK(ask(it, "undo") == MK_REFUSED && it->info.code == MK_NOTHING_TO_UNDO);
	CHECK(ask(it, "cat / cgroup.procs") == MK_DONE && says(it, "7 ok\n| 1\n"));
	CHECK(mk_groups(&h, (uint8_t *)it->out, OUT, &it->info) == MK_DONE && it->info.len == 2 && it->info.count == 1);
}

static void mixed(double seconds)
{
	struct asked it;
	run_threads(anything, seconds);
	undo_everything(&it);
}

/* ---- a close while others call */

static atomic_bool closed;

static void *until_closed(void *number)
{
	struct asked it;
	int own = 10 + *(int *)number;
	for (;;) {
		bool was_closed = atomic_load(&closed);
		uint32_t status = ask(&it, "mkdir /t%d", own);
		if (status == MK_CLOSED)
			return NULL;
		CHECK(!was_closed && status == MK_DONE && says(&it, "7 ok\n"));
		status = ask(&it, "rmdir /t%d", own);
		if (status == MK_CLOSED)
			return NULL;
		CHECK(status == MK_DONE && says(&it, "7 ok\n"));
	}
}

static void closing(double seconds)
{
	for (double end = now() + seconds; now() < end;) {
		pthread_t threads[THREADS];
		atomic_store(&closed, false);
		start_threads(threads, until_closed);
		pause_for(0.002);
		CHECK(mk_close(&h) == MK_DONE);
		atomic_store(&closed, true);
		CHECK(mk_close(&h) == MK_CLOSED);
		join_threads(threads);
		CHECK(mk_open(&h) == MK_DONE);
	}
}

/* ---- threads that wait for changes until the handle is closed */

static void *wait_until_closed(void *unused)
{
	uint64_t seen = 0, changes;
	uint32_t status;
	(void)unused;
	while ((status = mk_wait(&h, seen, MK_FOREVER, &changes)) == MK_DONE) {
		CHECK(changes > seen);
		if (seen == 0)
			atomic_fetch_add(&begun, 1);
		seen = changes;
	}
	CHECK(status == MK_CLOSED && changes == 0 && seen > 0);
	return NULL;
}

static void waiting(double seconds)
{
	static struct asked it;
	pthread_t threads[THREADS];
	uint64_t rounds = 0, changes;
	for (int i = 0; i < THREADS; i++)
		CHECK(pthread_create(&threads[i], NULL, wait_until_closed, NULL) == 0);
	for (double end = now() + seconds; now() < end || atomic_load(&begun) < THREADS; rounds++) {
		CHECK(ask(&it, "mkdir /a") == MK_DONE && ask(&it, "mkdir /a") == MK_REFUSED && ask(&it, "rmdir /a") == MK_DONE);
		if (rounds % 16 == 0)
			pause_for(0.0002);
	}
	CHECK(mk_changes(&h, &changes) == MK_DONE && changes == 2 * rounds);
	pause_for(0.05);
	CHECK(mk_close(&h) == MK_DONE);
	for (int i = 0; i < THREADS; i++)
		CHECK(pthread_join(threads[i], NULL) == 0);
	CHECK(mk_open(&h) == MK_DONE);
}

/* ---- threads that copy two handles crosswise, each onto the other, while others use and close them */

static mk_handle crossed[2];
static atomic_long crossings[2];

/* a copy is the state between two calls: all of its commands can be undone */
static void undo_a_copy(mk_handle *from)
{
	mk_handle mine = { 0 };
	mk_info info;
	size_t depth;
	char text[64];
	uint32_t status = mk_copy(from, &mine);
	if (status != MK_DONE) {
		CHECK(status == MK_CLOSED);
		return;
	}
	CHECK(mk_depth(&mine, &depth) == MK_DONE && mk_undo_to(&mine, 0, &info) == MK_DONE && info.count == depth);
	CHECK(mk_read(&mine, "/", "cgroup.stat", text, sizeof text, &info) == MK_DONE);
	CHECK(strcmp(text, "nr_descendants 0\nnr_dying_descendants 0\n") == 0);
	CHECK(mk_close(&mine) == MK_DONE);
}

static void *cross(void *number)
{
	int own = *(int *)number, way = own % 2;
	mk_handle *from = &crossed[way], *to = &crossed[1 - way];
	char path[16];
	mk_info info;
	snprintf(path, sizeof path, "/t%d", own);
	while (!atomic_load(&stopped)) {
		uint32_t status = mk_close(to);
		CHECK(status == MK_DONE || status == MK_CLOSED);
		status = mk_copy(from, to);
		CHECK(status == MK_DONE || status == MK_CLOSED);
		if (status == MK_DONE)
			atomic_fetch_add(&crossings[way], 1);
		status = mk_open(from); /* if both are closed, one begins anew */
		CHECK(status == MK_DONE || status == MK_CLOSED);
		for (int i = 0; i < 3; i++) {
			status = mk_mkdir(from, path, &info);
			CHECK(status == MK_DONE || status == MK_CLOSED || (status == MK_REFUSED && info.code == MK_EXISTS));
		}
		undo_a_copy(from);
		status = mk_rmdir(from, path, &info);
		CHECK(status == MK_DONE || status == MK_CLOSED || (status == MK_REFUSED && info.code == MK_NO_GROUP));
	}
	return NULL;
}

static void copying(double seconds)
{
	pthread_t threads[THREADS];
	CHECK(mk_open(&crossed[0]) == MK_DONE);
	atomic_store(&stopped, false);
	start_threads(threads, cross);
	for (double end = now() + seconds;
		 now() < end || atomic_load(&crossings[0]) == 0 || atomic_load(&crossings[1]) == 0;)
		pause_for(0.01);
	atomic_store(&stopped, true);
	join_threads(threads);
	for (int i = 0; i < 2; i++) {
		uint32_t status = mk_close(&crossed[i]);
		CHECK(status == MK_DONE || status == MK_CLOSED);
	}
}

/* ---- a handler that calls while a call of the same thread is running */

static atomic_long busy, answered;
static pthread_t interrupted;

static void handler(int signal_number)
{
	static struct asked it;
	static const uint8_t line[] = "cat /b pids.current";
	(void)signal_number;
	it.status = mk_line(&h, 9, line, sizeof line - 1, (uint8_t *)it.out, OUT - 1, &it.info);
	if (it.status == MK_BUSY) {
		if (it.info.len != 0 || it.info.error != EDEADLK)
			_exit(3);
		size_t depth = 5;
		mk_handle copy = { 0 };
		if (mk_depth(&h, &depth) != MK_BUSY || depth != 0 || mk_close(&h) != MK_BUSY || mk_open(&h) != MK_BUSY)
			_exit(4);
		if (mk_copy(&h, &copy) != MK_BUSY || mk_close(&copy) != MK_BUSY)
			_exit(6);
		atomic_fetch_add(&busy, 1);
		return;
	}
	if (it.status != MK_DONE || it.info.len != 9 || memcmp(it.out, "9 ok\n| 1\n", 9) != 0)
		_exit(5);
	atomic_fetch_add(&answered, 1);
}

static void *interrupt(void *unused)
{
	(void)unused;
	while (!atomic_load(&stopped)) {
		pthread_kill(interrupted, SIGUSR1);
		for (int i = 0; i < 200; i++)
			atomic_load(&stopped);
	}
	return NULL;
}

static void signals(double seconds)
{
	static struct asked it;
	static const uint8_t line[] = "cat /a cgroup.stat";
	static const char want[] = "7 ok\n| nr_descendants 0\n| nr_dying_descendants 0\n";
	pthread_t thread;
	CHECK(ask(&it, "mkdir /a") == MK_DONE && ask(&it, "mkdir /b") == MK_DONE &&
		ask(&it, "write /b cgroup.procs 1") == MK_DONE);
	struct sigaction action = { .sa_handler = handler };
	CHECK(sigaction(SIGUSR1, &action, NULL) == 0);
	interrupted = pthread_self();
	atomic_store(&stopped, false);
	CHECK(pthread_create(&thread, NULL, interrupt, NULL) == 0);
	for (double end = now() + seconds; now() < end || atomic_load(&busy) == 0 || atomic_load(&answered) == 0;) {
		it.status = mk_line(&h, 7, line, sizeof line - 1, (uint8_t *)it.out, OUT, &it.info);
		CHECK(it.status == MK_DONE && it.info.len == sizeof want - 1 && memcmp(it.out, want, sizeof want - 1) == 0);
	}
	atomic_store(&stopped, true);
	CHECK(pthread_join(thread, NULL) == 0);
}

/* ---- children of a program whose threads call */

static void in_the_child(void)
{
	struct asked it;
	alarm(PATIENCE_SECONDS);
	for (int own = 10; own < 10 + THREADS; own++) {
		if (ask(&it, "cat /t%d pids.current", own) != MK_DONE)
			continue; /* its thread has not begun */
		long count = strtol(it.out + strlen("7 ok\n| "), NULL, 10), lines = -1;
		CHECK(ask(&it, "cat /t%d cgroup.procs", own) == MK_DONE);
		for (const char *at = it.out; (at = strchr(at, '\n')) != NULL; at++)
			lines++;
		CHECK(lines == count && count <= 2);
	}
	undo_everything(&it);
	CHECK(mk_close(&h) == MK_DONE && mk_open(&h) == MK_DONE && mk_close(&h) == MK_DONE);
	_exit(0);
}

static void forks(double seconds)
{
	pthread_t threads[THREADS];
	atomic_store(&stopped, false);
	start_threads(threads, own_group);
	for (double end = now() + seconds; now() < end;) {
		int status = -1;
		pid_t child = fork();
		CHECK(child >= 0);
		if (child == 0)
			in_the_child();
		CHECK(waitpid(child, &status, 0) == child && WIFEXITED(status) && WEXITSTATUS(status) == 0);
	}
	atomic_store(&stopped, true);
	join_threads(threads);
}

int main(int argc, char **argv)
{
	static const struct {
		const char *name;
		void (*run)(double seconds);
	} parts[] = { { "own", own }, { "mixed", mixed }, { "close", closing }, { "wait", waiting }, { "copy", copying },
		{ "signal", signals }, { "fork", forks } };
	if (argc != 3)
		return 2;
	for (size_t i = 0; i < sizeof parts / sizeof *parts; i++)
		if (strcmp(argv[1], parts[i].name) == 0) {
			CHECK(mk_open(&h) == MK_DONE);
			parts[i].run(strtod(argv[2], NULL));
			CHECK(mk_close(&h) == MK_DONE);
			printf("%ld\n", atomic_load(&held));
			return 0;
		}
	return 2;
}
