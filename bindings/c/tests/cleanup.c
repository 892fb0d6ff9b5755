/* No call leaves memory behind, whether it succeeds, is refused, fails by a fault or runs out of memory at any of its allocations: each
   allocation and each free is counted. Link with -Wl,--wrap=malloc,--wrap=calloc,--wrap=realloc,--wrap=free and --wrap=pthread_ with
   each of mutex_init, mutex_destroy, condattr_init, condattr_destroy, condattr_setclock, cond_init and atfork. Exits with the number of
   the first check that fails, or 0, and prints how many held. */
#include "check.h"
#include <pthread.h>
#include <sys/wait.h>
#include <time.h>
#include <unistd.h>

void *__real_malloc(size_t size);
void *__real_calloc(size_t count, size_t size);
void *__real_realloc(void *at, size_t size);
void __real_free(void *at);
int __real_pthread_mutex_init(pthread_mutex_t *lock, const pthread_mutexattr_t *how);
int __real_pthread_mutex_destroy(pthread_mutex_t *lock);
int __real_pthread_condattr_init(pthread_condattr_t *how);
int __real_pthread_condattr_destroy(pthread_condattr_t *how);
int __real_pthread_atfork(void (*before)(void), void (*after)(void), void (*in_child)(void));
int __real_pthread_condattr_setclock(pthread_condattr_t *how, clockid_t clock);
int __real_pthread_cond_init(pthread_cond_t *condition, const pthread_condattr_t *how);
void *__wrap_malloc(size_t size);
void *__wrap_calloc(size_t count, size_t size);
void *__wrap_realloc(void *at, size_t size);
void __wrap_free(void *at);
int __wrap_pthread_mutex_init(pthread_mutex_t *lock, const pthread_mutexattr_t *how);
int __wrap_pthread_mutex_destroy(pthread_mutex_t *lock);
int __wrap_pthread_condattr_init(pthread_condattr_t *how);
int __wrap_pthread_condattr_destroy(pthread_condattr_t *how);
int __wrap_pthread_atfork(void (*before)(void), void (*after)(void), void (*in_child)(void));
int __wrap_pthread_condattr_setclock(pthread_condattr_t *how, clockid_t clock);
int __wrap_pthread_cond_init(pthread_cond_t *condition, const pthread_condattr_t *how);

/* ---- allocations: how many are live, and after how many more one is refused */

static long live, left = -1;
static bool was_refused;

static bool refuses(void)
{
	if (left < 0 || left-- > 0)
		return false;
	was_refused = true;
	return true;
}

void *__wrap_malloc(size_t size)
{
	void *at = refuses() ? NULL : __real_malloc(size);
	live += at != NULL;
	return at;
}

void *__wrap_calloc(size_t count, size_t size)
{
	void *at = refuses() ? NULL : __real_calloc(count, size);
	live += at != NULL;
	return at;
}

void *__wrap_realloc(void *at, size_t size)
{
	bool was = at != NULL;
	void *now = refuses() ? NULL : __real_realloc(at, size);
	live += !was && now != NULL;
	return now;
}

void __wrap_free(void *at)
{
	live -= at != NULL;
	__real_free(at);
}

/* ---- the parts of a lock: which of them can't be had, and how many there are of those that have an end */

enum part { LOCK, CLOCK_OF, CLOCK_SET, CONDITION, PARTS };
static int missing = PARTS;
static int locks, clocks;

int __wrap_pthread_mutex_init(pthread_mutex_t *lock, const pthread_mutexattr_t *how)
{
	locks += missing != LOCK;
	return missing == LOCK ? EAGAIN : __real_pthread_mutex_init(lock, how);
}

int __wrap_pthread_mutex_destroy(pthread_mutex_t *lock)
{
	locks--;
	return __real_pthread_mutex_destroy(lock);
}

int __wrap_pthread_condattr_init(pthread_condattr_t *how)
{
	clocks += missing != CLOCK_OF;
	return missing == CLOCK_OF ? ENOMEM : __real_pthread_condattr_init(how);
}

int __wrap_pthread_condattr_destroy(pthread_condattr_t *how)
{
	clocks--;
	return __real_pthread_condattr_destroy(how);
}

int __wrap_pthread_condattr_setclock(pthread_condattr_t *how, clockid_t clock)
{
	return missing == CLOCK_SET || clock != CLOCK_MONOTONIC ? EINVAL : __real_pthread_condattr_setclock(how, clock);
}

int __wrap_pthread_cond_init(pthread_cond_t *condition, const pthread_condattr_t *how)
{
	return missing == CONDITION ? EAGAIN : __real_pthread_cond_init(condition, how);
}

/* In the environment of a program whose library can't watch forks. */
#define UNWATCHED "MAKHLOEUM_UNWATCHED"

int __wrap_pthread_atfork(void (*before)(void), void (*after)(void), void (*in_child)(void))
{
	return getenv(UNWATCHED) != NULL ? ENOMEM : __real_pthread_atfork(before, after, in_child);
}

/* ---- calls, each in a hierarchy with /a, /a/b, process 2 in /a/b, a limit that is reached, and a long list in /many */

enum { MANY = 600, FIRST = 4000000, OUT = 65536 }; /* a list of these is longer than the library's own buffer */

static mk_handle other, closed_handle;
static uint8_t out[OUT];
static char text[OUT];
static uint32_t pids[MANY];
static mk_text texts[3];
static uint64_t value;
static bool populated;
static size_t size;
static const char names[] = "/a\0pids.max\0/many\0cgroup.procs\0/none\0pids.max";

#define PATH(path) (const uint8_t *)(path), strlen(path)
#define CALL(name, call)       \
	static uint32_t name(void) \
	{                          \
		return call;           \
	}

/* a fault that is due at the next call, or at the one after it */
static uint32_t with_fault(uint32_t (*call)(void), uint64_t nth)
{
	if (mk_fail(&h, "/a", nth, EIO, &info) != MK_DONE || mk_fail(&h, "/many", nth, ENOSPC, &info) != MK_DONE)
		return MK_OUT_OF_MEMORY;
	return call();
}

static uint32_t with_vanished(uint32_t (*call)(void))
{
	if (mk_vanish(&h, "/a", 1, &info) != MK_DONE || mk_vanish(&h, "/a", 1, &info) != MK_DONE ||
		mk_vanish(&h, "/a/b", 9, &info) != MK_DONE)
		return MK_OUT_OF_MEMORY;
	return call();
}

CALL(make_group, mk_mkdir(&h, "/a/c", &info))
CALL(make_again, mk_mkdir(&h, "/a", &info))
CALL(make_nowhere, mk_mkdir(&h, "a b", &info))
CALL(remove_group, mk_rmdir(&h, "/a/b", &info))
CALL(fork_there, mk_fork(&h, 1, 9, &info))
CALL(fork_too_many, mk_fork(&h, 2, 9, &info))
CALL(exit_there, mk_exit(&h, 2, &info))
CALL(attach, mk_attach(&h, "/a", 2, &info))
CALL(write_limit, mk_write(&h, "/a", "pids.max", " 7\n", &info))
CALL(write_wrong, mk_write(&h, "/a", "pids.max", "x", &info))
CALL(kill_all, mk_kill(&h, "/many", &info))
CALL(line, mk_line(&h, 1, PATH("cat /many cgroup.procs"), out, OUT, &info))
CALL(short_line, mk_line(&h, 1, PATH("cat /many cgroup.procs"), out, 9, &info))
CALL(words, mk_words(&h, 1, "mkdir/a/c", (const size_t[]){ 5, 4 }, 2, out, OUT, &info))
CALL(undo, mk_undo(&h, 1, out, OUT, &info))
CALL(undo_all, mk_undo_to(&h, 0, &info))
CALL(undo_nothing, mk_undo_to(&h, SIZE_MAX, &info))
CALL(read_text, mk_read(&h, "/a", "pids.max", text, OUT, &info))
CALL(read_long, mk_read(&h, "/many", "cgroup.procs", text, OUT, &info))
CALL(read_short, mk_read(&h, "/many", "cgroup.procs", text, 4800, &info))
CALL(read_nothing, mk_read(&h, "/a", "none", text, OUT, &info))
CALL(where, mk_where(&h, 2, text, OUT, &info))
CALL(children, mk_children(&h, PATH("/a"), out, OUT, &info))
CALL(groups, mk_groups(&h, out, OUT, &info))
CALL(subtree, mk_subtree(&h, PATH("/a"), out, 1, &info))
CALL(history, mk_history(&h, 0, out, OUT, &info))
CALL(has_group, mk_has_group(&h, PATH("/a"), &info))
CALL(current, mk_current(&h, "/a", &value, &info))
CALL(limit, mk_limit(&h, "/none", &value, &info))
CALL(is_populated, mk_populated(&h, "/a", &populated, &info))
CALL(processes, mk_processes(&h, "/many", pids, MANY, &info))
CALL(processes_short, mk_processes(&h, "/many", pids, 5, &info))
CALL(many, mk_read_many(&h, names, 3, texts, text, OUT, &info))
CALL(many_short, mk_read_many(&h, names, 3, texts, text, 9, &info))
CALL(get, mk_get(&h, "/many", "cgroup.threads", text, OUT, &info))
CALL(get_short, mk_get(&h, "/many", "cgroup.threads", text, 9, &info))
CALL(freeze, mk_put(&h, "/a", "cgroup.freeze", "1", 1, 1, &info))
CALL(put, mk_put(&h, "/a", "pids.max", "0x10", 4, 1, &info))
CALL(put_on_root, mk_put(&h, "/", "pids.max", "1", 1, 1, &info))
CALL(fail, mk_fail(&h, "/a", 1, EIO, &info))
CALL(fail_nowhere, mk_fail(&h, "a", 1, EIO, &info))
CALL(vanish, mk_vanish(&h, "/a", 1, &info))
CALL(clear, mk_clear_faults(&h, &size))
CALL(watch, mk_wait_file(&h, "/many", "cgroup.procs", "", 0, text, OUT, &info))
CALL(watch_short, mk_wait_file(&h, "/many", "cgroup.procs", "", 0, text, 9, &info))
CALL(open_other, mk_open(&other))
CALL(open_again, mk_open(&h))
CALL(copy, mk_copy(&h, &other))
CALL(copy_nothing, mk_copy(&closed_handle, &other))
CALL(copy_onto_itself, mk_copy(&h, &h))
CALL(failing_read, with_fault(read_text, 1))
CALL(failing_many, with_fault(many, 1))
CALL(failing_later, with_fault(many_short, 2))
CALL(failing_list, with_fault(processes_short, 1))
CALL(failing_copy, with_fault(copy, 1))
CALL(vanished_read, with_vanished(read_text))
CALL(vanished_many, with_vanished(many))
CALL(vanished_put, with_vanished(put))

#define ROW(name)   \
	{               \
#name, name \
	}
static const struct {
	const char *name;
	uint32_t (*make)(void);
} calls[] = { ROW(make_group), ROW(make_again), ROW(make_nowhere), ROW(remove_group), ROW(fork_there),
	ROW(fork_too_many), ROW(exit_there), ROW(attach), ROW(write_limit), ROW(write_wrong), ROW(kill_all), ROW(line),
	ROW(short_line), ROW(words), ROW(undo), ROW(undo_all), ROW(undo_nothing), ROW(read_text), ROW(read_long),
	ROW(read_short), ROW(read_nothing), ROW(where), ROW(children), ROW(groups), ROW(subtree), ROW(history),
	ROW(has_group), ROW(current), ROW(limit), ROW(is_populated), ROW(processes), ROW(processes_short), ROW(many),
	ROW(many_short), ROW(get), ROW(get_short), ROW(freeze), ROW(put), ROW(put_on_root), ROW(fail), ROW(fail_nowhere),
	ROW(vanish), ROW(clear), ROW(watch), ROW(watch_short), ROW(open_other), ROW(open_again), ROW(copy),
	ROW(copy_nothing), ROW(copy_onto_itself), ROW(failing_read), ROW(failing_many), ROW(failing_later),
	ROW(failing_list), ROW(failing_copy), ROW(vanished_read), ROW(vanished_many), ROW(vanished_put) };

/* A new hierarchy in the handle; what is recorded there can be undone by one call or by all. */
static bool begin(void)
{
	if (mk_open(&h) != MK_DONE || mk_mkdir(&h, "/many", &info) != MK_DONE)
		return false;
	for (int pid = FIRST; pid < FIRST + MANY; pid++)
		if (mk_fork(&h, 1, pid, &info) != MK_DONE || mk_attach(&h, "/many", pid, &info) != MK_DONE)
			return false;
	return mk_forget(&h) == MK_DONE && mk_mkdir(&h, "/a", &info) == MK_DONE && mk_mkdir(&h, "/a/b", &info) == MK_DONE &&
		mk_fork(&h, 1, 2, &info) == MK_DONE && mk_attach(&h, "/a/b", 2, &info) == MK_DONE &&
		mk_write(&h, "/a", "pids.max", "1", &info) == MK_DONE;
}

/* A fault that waits ends with the hierarchy. */
static bool end(void)
{
	mk_close(&other);
	return mk_close(&h) == MK_DONE;
}

/* What is live after the call and the end of all hierarchies; only the memory of two locks is kept. */
static int each_call(void)
{
	CHECK(begin() && copy() == MK_DONE && end());
	long before = live;
	for (size_t i = 0; i < sizeof calls / sizeof *calls; i++) {
		was_refused = true;
		for (long n = 0; was_refused; n++) {
			CHECK(begin());
			was_refused = false;
			left = n < 40 ? n : -1; /* a kill of many makes more */
			uint32_t status = calls[i].make();
			left = -1;
			CHECK(!was_refused || status == MK_OUT_OF_MEMORY);
			CHECK(status != MK_OUT_OF_MEMORY || was_refused);
			CHECK(end());
			if (live != before)
				fprintf(stderr, "cleanup.c: %s, allocation %ld: %ld are left\n", calls[i].name, n, live - before);
			CHECK(live == before);
		}
	}
	return 0;
}

/* A lock of which a part can't be had takes no memory, and the next call makes another. */
static int each_part_of_a_lock(void)
{
	mk_handle third = { 0 }, more[PARTS] = { { 0 } };
	CHECK(mk_open(&h) == MK_DONE && mk_open(&other) == MK_DONE);
	for (missing = 0; missing < PARTS; missing++) {
		long before = live;
		int locks_before = locks;
		CHECK(mk_open(&third) == MK_OUT_OF_MEMORY && live == before && mk_close(&third) == MK_CLOSED);
		CHECK(mk_copy(&h, &third) == MK_OUT_OF_MEMORY && live == before && mk_close(&third) == MK_CLOSED);
		CHECK(locks == locks_before && clocks == 0);
		int which = missing;
		missing = PARTS;
		CHECK(mk_open(&more[which]) == MK_DONE && mk_mkdir(&more[which], "/a", &info) == MK_DONE);
		missing = which;
	}
	for (int i = 0; i < PARTS; i++)
		CHECK(mk_close(&more[i]) == MK_DONE);
	CHECK(mk_close(&other) == MK_DONE);
	return 0;
}

/* A library that can't watch forks opens nothing: a child could wait for ever for a lock that another thread had. */
static int unwatched_forks(void)
{
	int status;
	pid_t child = fork();
	CHECK(child >= 0);
	if (child == 0) {
		setenv(UNWATCHED, "yes", 1);
		execl("/proc/self/exe", "cleanup", (char *)NULL);
		_exit(2);
	}
	CHECK(waitpid(child, &status, 0) == child && WIFEXITED(status) && WEXITSTATUS(status) == 0);
	return 0;
}

int main(void)
{
	int (*const parts[])(void) = { each_call, each_part_of_a_lock, unwatched_forks };
	if (getenv(UNWATCHED) != NULL)
		return mk_open(&h) == MK_OUT_OF_MEMORY && mk_open(&h) == MK_OUT_OF_MEMORY && live == 0 ? 0 : 1;
	return run_and_close(parts, sizeof parts / sizeof *parts);
}
