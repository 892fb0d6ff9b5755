/* Waits that end by a change of a file, a cancellation, a fork or a close, and calls that don't wait. Exits with the number of the first
   check that fails, or 0, and prints how many held. A hang ends it by SIGALRM. */
#include "check.h"
#include <pthread.h>
#include <sys/wait.h>
#include <time.h>
#include <unistd.h>

enum { PATIENCE_SECONDS = 300, TEXT_BYTES = 64 };

static double now(void)
{
	struct timespec t;
	clock_gettime(CLOCK_MONOTONIC, &t);
	return (double)t.tv_sec + (double)t.tv_nsec / 1e9;
}

static void pause_for(double seconds)
{
	struct timespec t = { .tv_nsec = (long)(seconds * 1e9) };
	nanosleep(&t, NULL);
}

/* ---- a thread that is cancelled while it waits */

static int watching; /* threads that know the number of changes from which they wait */

static void wait_for_watchers(int count)
{
	while (__atomic_load_n(&watching, __ATOMIC_ACQUIRE) < count)
		pause_for(0.001);
	pause_for(0.03); /* so that they most likely wait already; if not, they see a change at once */
}

static void *wait_for_ever(void *unused)
{
	uint64_t changes;
	mk_changes(&h, &changes);
	__atomic_fetch_add(&watching, 1, __ATOMIC_ACQ_REL);
	return mk_wait(&h, changes, MK_FOREVER, &changes) == MK_DONE ? unused : NULL;
}

static void *wait_for_an_hour(void *unused)
{
	uint64_t changes;
	mk_changes(&h, &changes);
	return mk_wait(&h, changes, 3600000, &changes) == MK_DONE ? unused : NULL;
}

static void *wait_for_a_file(void *unused)
{
	char text[TEXT_BYTES];
	mk_info own;
	return mk_wait_file(&h, "/a", "pids.max", "max\n", MK_FOREVER, text, sizeof text, &own) == MK_DONE ? unused : NULL;
}

static pthread_key_t at_exit;
static uint32_t status_at_exit;

static void call_at_exit(void *unused)
{
	size_t depth;
	(void)unused;
	status_at_exit = mk_depth(&h, &depth);
}

static void *wait_and_call_at_exit(void *unused)
{
	pthread_setspecific(at_exit, &h);
	return wait_for_ever(unused);
}

static int cancelled(void)
{
	void *(*const waits[])(void *) = { wait_for_ever, wait_for_an_hour, wait_for_a_file, wait_and_call_at_exit };
	CHECK(pthread_key_create(&at_exit, call_at_exit) == 0);
	status_at_exit = MK_BUSY;
	for (size_t i = 0; i < sizeof waits / sizeof *waits; i++) {
		pthread_t thread;
		void *how;
		int child_status;
		CHECK(pthread_create(&thread, NULL, waits[i], &h) == 0);
		pause_for(0.03);
		CHECK(pthread_cancel(thread) == 0 && pthread_join(thread, &how) == 0 && how == PTHREAD_CANCELED);
		CHECK(done(mk_mkdir(&h, "/b", &info)) && done(mk_rmdir(&h, "/b", &info)));
		pid_t child = fork();
		CHECK(child >= 0);
		if (child == 0)
			_exit(mk_mkdir(&h, "/c", &info) == MK_DONE && mk_close(&h) == MK_DONE ? 0 : 1);
		CHECK(waitpid(child, &child_status, 0) == child && WIFEXITED(child_status) && WEXITSTATUS(child_status) == 0);
	}
	CHECK(status_at_exit == MK_DONE && pthread_key_delete(at_exit) == 0);
	mk_handle copy = { 0 };
	CHECK(mk_copy(&h, &copy) == MK_DONE && mk_close(&copy) == MK_DONE);
	return 0;
}

/* ---- time */

static int full_seconds(void)
{
	uint64_t seen, next;
	CHECK(mk_changes(&h, &seen) == MK_DONE);
	for (int round = 0; round < 3; round++) {
		double start = now(), part = start - (double)(long)start;
		pause_for(part < 0.93 ? 0.93 - part : 0);
		start = now();
		CHECK(mk_wait(&h, seen, 150, &next) == MK_TIMED_OUT && next == seen && now() - start >= 0.15);
	}
	double start = now();
	CHECK(mk_wait(&h, seen, 1150, &next) == MK_TIMED_OUT && now() - start >= 1.15);
	return 0;
}

/* ---- the child of a fork: its own waits are woken */

static int in_the_child(void)
{
	pthread_t thread;
	void *good;
	alarm(PATIENCE_SECONDS / 2);
	for (int round = 0; round < 4; round++) {
		if (mk_mkdir(&h, "/x", &info) != MK_DONE)
			return 1;
		__atomic_store_n(&watching, 0, __ATOMIC_RELEASE);
		if (pthread_create(&thread, NULL, wait_for_ever, &h) != 0)
			return 2;
		wait_for_watchers(1);
		if (mk_rmdir(&h, "/x", &info) != MK_DONE)
			return 3;
		if (pthread_join(thread, &good) != 0 || good == NULL)
			return 4;
	}
	return mk_close(&h) == MK_DONE ? 0 : 5;
}

static int forked(void)
{
	pthread_t threads[3];
	void *good;
	int child_status;
	__atomic_store_n(&watching, 0, __ATOMIC_RELEASE);
	for (int i = 0; i < 3; i++)
		CHECK(pthread_create(&threads[i], NULL, wait_for_ever, &h) == 0);
	wait_for_watchers(3);
	pid_t child = fork();
	CHECK(child >= 0);
	if (child == 0)
		_exit(in_the_child());
	CHECK(waitpid(child, &child_status, 0) == child && WIFEXITED(child_status) && WEXITSTATUS(child_status) == 0);
	CHECK(done(mk_mkdir(&h, "/x", &info)) && done(mk_rmdir(&h, "/x", &info)));
	for (int i = 0; i < 3; i++)
		CHECK(pthread_join(threads[i], &good) == 0 && good != NULL);
	return 0;
}

/* ---- a file */

static void *refuse_later(void *unused)
{
	mk_info own;
	pause_for(0.05);
	bool forked_first = mk_fork(&h, 1, 2, &own) == MK_DONE;
	return forked_first && mk_fork(&h, 1, 3, &own) == MK_REFUSED && own.code == MK_PIDS_MAX ? unused : NULL;
}

static void *remove_later(void *unused)
{
	mk_info own;
	pause_for(0.05);
	return mk_rmdir(&h, "/r", &own) == MK_DONE ? unused : NULL;
}

static int files(void)
{
	char text[TEXT_BYTES] = "#";
	pthread_t thread;
	void *good;
	size_t left;
	CHECK(done(mk_write(&h, "/a", "pids.max", "2", &info)) && done(mk_attach(&h, "/a", 1, &info)));
	CHECK(done(mk_wait_file(&h, "/a", "pids.events", "", 0, text, sizeof text, &info)) &&
		strcmp(text, "max 0\n") == 0 && info.len == 6);
	CHECK(mk_wait_file(&h, "/a", "pids.events", text, 0, text, sizeof text, &info) == MK_TIMED_OUT &&
		info.error == ETIMEDOUT && info.len == 0);
	double start = now();
	CHECK(mk_wait_file(&h, "/a", "pids.events", text, 60, text, sizeof text, &info) == MK_TIMED_OUT &&
		now() - start >= 0.06);
	/* a longer and a shorter text that begins in the same way is another one */
	CHECK(done(mk_wait_file(&h, "/a", "pids.events", "max 0\n\n", 0, text, sizeof text, &info)) &&
		done(mk_wait_file(&h, "/a", "pids.events", "max 0", 0, text, sizeof text, &info)));
	CHECK(pthread_create(&thread, NULL, refuse_later, &h) == 0);
	CHECK(done(mk_wait_file(&h, "/a", "pids.events", text, MK_FOREVER, text, sizeof text, &info)) &&
		strcmp(text, "max 1\n") == 0);
	CHECK(pthread_join(thread, &good) == 0 && good != NULL);
	/* room */
	memset(text, '#', sizeof text);
	CHECK(mk_wait_file(&h, "/a", "pids.events", "", 0, text, 6, &info) == MK_TOO_SMALL && info.needed == 7 &&
		info.error == ERANGE && text[0] == '#');
	CHECK(done(mk_wait_file(&h, "/a", "pids.events", "", 0, text, 7, &info)) && text[7] == '#' && info.needed == 0);
	/* what can't be read */
	CHECK(mk_wait_file(&h, "/none", "pids.events", "", 0, text, sizeof text, &info) == MK_REFUSED &&
		info.code == MK_NO_GROUP && info.error == ENOENT);
	CHECK(mk_wait_file(&h, "/a", "cgroup.kill", "", 0, text, sizeof text, &info) == MK_FAULT &&
		info.code == MK_DIRECTION);
	CHECK(mk_wait_file(&h, "/a b", "x", "", 0, text, sizeof text, &info) == MK_FAULT && info.code == MK_PATH);
	CHECK(done(mk_mkdir(&h, "/r", &info)) && pthread_create(&thread, NULL, remove_later, &h) == 0);
	CHECK(mk_wait_file(&h, "/r", "cgroup.events", "populated 0\nfrozen 0\n", MK_FOREVER, text, sizeof text, &info) ==
			MK_REFUSED &&
		info.code == MK_NO_GROUP);
	CHECK(pthread_join(thread, &good) == 0 && good != NULL);
	/* faults don't count it */
	CHECK(done(mk_fail(&h, "/a", 1, EIO, &info)) &&
		done(mk_wait_file(&h, "/a", "pids.events", "", 0, text, sizeof text, &info)));
	CHECK(mk_wait_file(&h, "/a", "pids.events", text, 0, text, sizeof text, &info) == MK_TIMED_OUT &&
		mk_clear_faults(&h, &left) == MK_DONE && left == 1);
	CHECK(done(mk_fail(&h, "/none", 1, EIO, &info)) &&
		mk_wait_file(&h, "/none", "pids.max", "", 0, text, sizeof text, &info) == MK_REFUSED);
	CHECK(mk_clear_faults(&h, &left) == MK_DONE && left == 1);
	return 0;
}

/* ---- calls that don't wait */

enum { RECORDS = 60000 };

static void *copy_often(void *stop)
{
	for (int i = 0; i < 200 && !__atomic_load_n((bool *)stop, __ATOMIC_ACQUIRE); i++) {
		mk_handle copy = { 0 };
		if (mk_copy(&h, &copy) != MK_DONE || mk_close(&copy) != MK_DONE)
			return NULL;
	}
	return stop;
}

static int nonblocking(void)
{
	mk_handle quick, none = { 0 };
	size_t depth, mark;
	char text[TEXT_BYTES];
	pthread_t thread;
	void *good;
	static bool stop;
	int blocked = 0;
	mk_nonblocking(&none, &quick);
	CHECK(mk_depth(&quick, &depth) == MK_CLOSED);
	mk_nonblocking(&h, &quick);
	CHECK(mk_depth(&h, &mark) == MK_DONE && done(mk_mkdir(&quick, "/q", &info)) && done(mk_rmdir(&h, "/q", &info)));
	for (int i = 0; i < RECORDS; i++)
		CHECK(done(mk_write(&h, "/a", "pids.max", i % 2 == 0 ? "5" : "6", &info)));
	CHECK(mk_depth(&quick, &depth) == MK_DONE && depth == mark + 2 + RECORDS);
	CHECK(pthread_create(&thread, NULL, copy_often, &stop) == 0);
	for (double end = now() + PATIENCE_SECONDS / 2.0; blocked < 3 && now() < end;) {
		uint32_t status = mk_mkdir(&quick, "/q", &info);
		CHECK(status == MK_DONE || (status == MK_WOULD_BLOCK && info.error == EAGAIN && info.code == 0));
		if (status == MK_DONE)
			CHECK(done(mk_rmdir(&h, "/q", &info)));
		blocked += status == MK_WOULD_BLOCK;
		/* the other handle waits */
		if (status == MK_WOULD_BLOCK)
			CHECK(done(mk_read(&h, "/a", "pids.max", text, sizeof text, &info)));
	}
	__atomic_store_n(&stop, true, __ATOMIC_RELEASE);
	CHECK(blocked == 3 && pthread_join(thread, &good) == 0 && good != NULL);
	CHECK(mk_status_errno(MK_WOULD_BLOCK, 0) == EAGAIN && mk_status_message(MK_WOULD_BLOCK) != NULL);
	CHECK(mk_close(&h) == MK_DONE && mk_depth(&quick, &depth) == MK_CLOSED && mk_open(&h) == MK_DONE);
	CHECK(mk_depth(&quick, &depth) == MK_CLOSED && mk_close(&quick) == MK_CLOSED && done(mk_mkdir(&h, "/a", &info)));
	return 0;
}

/* An engine is open while a call of another thread runs in it: neither mk_open nor mk_copy takes the handle of mk_nonblocking. */
static void *list_often(void *stop)
{
	static uint8_t lines[RECORDS * 32];
	mk_info own;
	while (!__atomic_load_n((bool *)stop, __ATOMIC_ACQUIRE))
		if (mk_history(&h, 0, lines, sizeof lines, &own) != MK_DONE)
			return NULL;
	return stop;
}

static int opened_twice(void)
{
	mk_handle quick, other = { 0 };
	size_t depth;
	pthread_t thread;
	void *good;
	static bool stop;
	int blocked = 0;
	CHECK(mk_open(&other) == MK_DONE);
	mk_nonblocking(&h, &quick);
	for (int i = 0; i < RECORDS; i++)
		CHECK(done(mk_write(&h, "/a", "pids.max", i % 2 == 0 ? "5" : "6", &info)));
	CHECK(pthread_create(&thread, NULL, list_often, &stop) == 0);
	while (blocked < 30) {
		blocked += mk_depth(&quick, &depth) == MK_WOULD_BLOCK;
		CHECK(mk_open(&quick) == MK_CLOSED && mk_copy(&other, &quick) == MK_CLOSED);
	}
	__atomic_store_n(&stop, true, __ATOMIC_RELEASE);
	CHECK(pthread_join(thread, &good) == 0 && good != NULL);
	CHECK(mk_depth(&quick, &depth) == MK_DONE && depth >= RECORDS && mk_close(&other) == MK_DONE &&
		done(mk_write(&h, "/a", "pids.max", "max", &info)));
	return 0;
}

static void *wait_for_a_closed_file(void *unused)
{
	char text[TEXT_BYTES];
	mk_info own;
	return mk_wait_file(&h, "/a", "pids.max", "max\n", MK_FOREVER, text, sizeof text, &own) == MK_CLOSED &&
			own.error == EBADF
		? unused
		: NULL;
}

static int closed(void)
{
	pthread_t thread;
	void *good;
	char text[TEXT_BYTES];
	CHECK(pthread_create(&thread, NULL, wait_for_a_closed_file, &h) == 0);
	pause_for(0.03);
	CHECK(mk_close(&h) == MK_DONE && pthread_join(thread, &good) == 0 && good != NULL);
	CHECK(mk_wait_file(&h, "/a", "pids.max", "", 0, text, sizeof text, &info) == MK_CLOSED);
	return 0;
}

/* ---- a handle that is closed and opened again at once: who waited for its first engine doesn't go on with the second */

static mk_handle reopened;
static int waiting;

static void *wait_for_the_first(void *unused)
{
	uint64_t changes = 9;
	char text[TEXT_BYTES] = "max\n";
	mk_handle first = reopened;
	mk_info own;
	int number = __atomic_fetch_add(&waiting, 1, __ATOMIC_ACQ_REL);
	uint32_t status = number == 0 ? mk_wait(&first, 1, MK_FOREVER, &changes)
								  : mk_wait_file(&first, "/a", "pids.max", text, MK_FOREVER, text, sizeof text, &own);
	return status == MK_CLOSED && (number > 0 || changes == 0) ? unused : NULL;
}

static int closed_and_opened(void)
{
	for (int round = 0; round < 20; round++) {
		pthread_t threads[2];
		void *good;
		CHECK(mk_open(&reopened) == MK_DONE && mk_mkdir(&reopened, "/a", &info) == MK_DONE);
		__atomic_store_n(&waiting, 0, __ATOMIC_RELEASE);
		for (int i = 0; i < 2; i++)
			CHECK(pthread_create(&threads[i], NULL, wait_for_the_first, &h) == 0);
		while (__atomic_load_n(&waiting, __ATOMIC_ACQUIRE) < 2)
			pause_for(0.001);
		pause_for(0.003);
		CHECK(mk_close(&reopened) == MK_DONE && mk_open(&reopened) == MK_DONE &&
			mk_mkdir(&reopened, "/a", &info) == MK_DONE);
		for (int i = 0; i < 2; i++)
			CHECK(pthread_join(threads[i], &good) == 0 && good != NULL);
		CHECK(mk_close(&reopened) == MK_DONE);
	}
	return 0;
}

/* A thread that is cancelled leaves frames behind that the address sanitizer takes for live ones. The thread sanitizer lets no child of
   threads start a thread. */
#if defined(__has_feature)
#define HAS(sanitizer) __has_feature(sanitizer)
#elif defined(__SANITIZE_ADDRESS__)
#define HAS(sanitizer) HAS_##sanitizer
#define HAS_address_sanitizer true
#define HAS_thread_sanitizer false
#elif defined(__SANITIZE_THREAD__)
#define HAS(sanitizer) HAS_##sanitizer
#define HAS_address_sanitizer false
#define HAS_thread_sanitizer true
#else
#define HAS(sanitizer) false
#endif

static int cancelled_if_possible(void)
{
	return HAS(address_sanitizer) ? 0 : cancelled();
}
static int forked_if_possible(void)
{
	return HAS(thread_sanitizer) ? 0 : forked();
}

int main(void)
{
	int (*const parts[])(void) = { cancelled_if_possible, full_seconds, forked_if_possible, files, nonblocking,
		opened_twice, closed, closed_and_opened };
	if (mk_open(&h) != MK_DONE || mk_mkdir(&h, "/a", &info) != MK_DONE)
		return 1;
	alarm(PATIENCE_SECONDS);
	return run_all(parts, sizeof parts / sizeof *parts);
}
