/* Until when a wait waits, by a clock that this program sets: no time passes, so a deadline is compared to the nanosecond. Link with
   -Wl,--wrap=clock_gettime,--wrap=pthread_cond_timedwait,--wrap=pthread_cond_wait. Exits with the number of the first check that fails,
   or 0, and prints how many held. */
#include "check.h"
#include <pthread.h>
#include <time.h>
#include <unistd.h>

int __wrap_clock_gettime(clockid_t clock, struct timespec *at);
int __wrap_pthread_cond_timedwait(pthread_cond_t *condition, pthread_mutex_t *lock, const struct timespec *end);
int __wrap_pthread_cond_wait(pthread_cond_t *condition, pthread_mutex_t *lock);
int __real_pthread_cond_wait(pthread_cond_t *condition, pthread_mutex_t *lock);

enum { PATIENCE_SECONDS = 300, WAKES = 3, TEXT_BYTES = 64 };

static struct timespec now; /* what the clock shows */
static clockid_t asked;
static int looks, timed, untimed,
	wakes; /* looks at the clock, waits of each kind, and how many waits end without a change */
static bool changes_once, is_late; /* the next wait ends with a change of another thread, and then at its end */
static struct timespec ends[WAKES + 1];

int __wrap_clock_gettime(clockid_t clock, struct timespec *at)
{
	asked = clock;
	looks++;
	*at = now;
	return 0;
}

static bool is_waiting; /* guarded by the lock of the engine, as far as the two threads are concerned */

int __wrap_pthread_cond_timedwait(pthread_cond_t *condition, pthread_mutex_t *lock, const struct timespec *end)
{
	if (timed <= WAKES)
		ends[timed] = *end;
	timed++;
	now.tv_sec += 7; /* a deadline that is made anew is another one */
	if (changes_once) {
		changes_once = false;
		__atomic_store_n(&is_waiting, true, __ATOMIC_RELEASE);
		int woken = __real_pthread_cond_wait(condition, lock);
		return is_late ? ETIMEDOUT : woken;
	}
	return wakes-- > 0 ? 0 : ETIMEDOUT;
}

int __wrap_pthread_cond_wait(pthread_cond_t *condition, pthread_mutex_t *lock)
{
	untimed++;
	if (wakes-- > 0)
		return 0;
	__atomic_store_n(&is_waiting, true, __ATOMIC_RELEASE);
	return __real_pthread_cond_wait(condition, lock);
}

static void begin(time_t seconds, long nanoseconds, int ends_without_a_change)
{
	now = (struct timespec){ .tv_sec = seconds, .tv_nsec = nanoseconds };
	looks = timed = untimed = 0;
	wakes = ends_without_a_change;
	__atomic_store_n(&is_waiting, false, __ATOMIC_RELEASE);
}

static bool is_at(const struct timespec *end, int64_t seconds, int64_t nanoseconds, int64_t milliseconds)
{
	/* in one sum, as the library doesn't have it */
	int64_t whole = nanoseconds + milliseconds * 1000000;
	return end->tv_sec == seconds + whole / 1000000000 && end->tv_nsec == whole % 1000000000;
}

static const uint32_t times[] = { 0, 1, 9, 10, 99, 100, 999, 1000, 1001, 1150, 1999, 2000, 60000, 3600000, 86400000,
	UINT32_MAX / 2, UINT32_MAX - 1 };
static const long parts[] = { 0, 1, 850000000, 998999999, 999000000, 999000001, 999999999 };
enum { TIMES = sizeof times / sizeof *times, PARTS = sizeof parts / sizeof *parts };

static int of_changes(void)
{
	uint64_t seen, next;
	CHECK(mk_changes(&h, &seen) == MK_DONE);
	for (int time = 0; time < TIMES; time++)
		for (int part = 0; part < PARTS; part++) {
			begin(5000, parts[part], 0);
			CHECK(mk_wait(&h, seen, times[time], &next) == MK_TIMED_OUT && next == seen && timed == 1 && untimed == 0);
			CHECK(is_at(&ends[0], 5000, parts[part], times[time]) && asked == CLOCK_MONOTONIC);
		}
	return 0;
}

static int of_a_file(void)
{
	char text[TEXT_BYTES] = "max\n";
	for (int time = 0; time < TIMES; time++)
		for (int part = 0; part < PARTS; part++) {
			begin(5000, parts[part], 0);
			CHECK(mk_wait_file(&h, "/a", "pids.max", text, times[time], text, sizeof text, &info) == MK_TIMED_OUT);
			CHECK(timed == 1 && untimed == 0 && is_at(&ends[0], 5000, parts[part], times[time]));
		}
	return 0;
}

/* What has changed already isn't waited for. */
static int at_once(void)
{
	char text[TEXT_BYTES] = "5\n";
	uint64_t next;
	begin(5000, 0, 0);
	CHECK(mk_wait(&h, UINT64_MAX, MK_FOREVER, &next) == MK_DONE && timed == 0 && untimed == 0);
	CHECK(done(mk_wait_file(&h, "/a", "pids.max", text, MK_FOREVER, text, sizeof text, &info)) && timed == 0 &&
		untimed == 0 && strcmp(text, "max\n") == 0);
	return 0;
}

/* A wait of the system may end by itself. That is no change, and the deadline stays. */
static int woken_without_a_change(void)
{
	char text[TEXT_BYTES] = "max\n";
	uint64_t seen, next;
	CHECK(mk_changes(&h, &seen) == MK_DONE);
	begin(5000, 0, WAKES);
	CHECK(mk_wait(&h, seen, 100, &next) == MK_TIMED_OUT && next == seen && timed == WAKES + 1 && looks == 1);
	for (int i = 0; i <= WAKES; i++)
		CHECK(is_at(&ends[i], 5000, 0, 100));
	begin(5000, 0, WAKES);
	CHECK(mk_wait_file(&h, "/a", "pids.max", text, 100, text, sizeof text, &info) == MK_TIMED_OUT &&
		timed == WAKES + 1 && looks == 1);
	for (int i = 0; i <= WAKES; i++)
		CHECK(is_at(&ends[i], 5000, 0, 100));
	return 0;
}

static int64_t next_pid = 2;

static void *change_once_it_waits(void *unused)
{
	mk_info own;
	while (!__atomic_load_n(&is_waiting, __ATOMIC_ACQUIRE))
		nanosleep(&(struct timespec){ .tv_nsec = 1000000 }, NULL);
	return mk_fork(&h, 1, next_pid++, &own) == MK_DONE ? unused : NULL;
}

/* The hierarchy changes, but not the file: the rest of the time is waited for, and no more. */
static int another_change(void)
{
	char text[TEXT_BYTES] = "max\n";
	pthread_t thread;
	void *good;
	begin(5000, 0, 0);
	changes_once = true;
	CHECK(pthread_create(&thread, NULL, change_once_it_waits, &h) == 0);
	CHECK(mk_wait_file(&h, "/a", "pids.max", text, 100, text, sizeof text, &info) == MK_TIMED_OUT && timed == 2);
	CHECK(is_at(&ends[0], 5000, 0, 100) && is_at(&ends[1], 5000, 0, 100) && looks == 1);
	CHECK(pthread_join(thread, &good) == 0 && good != NULL);
	return 0;
}

/* A change that comes with the end of the time counts. */
static int a_change_at_the_end(void)
{
	char before[TEXT_BYTES], text[TEXT_BYTES];
	uint64_t seen, next;
	pthread_t thread;
	void *good;
	CHECK(mk_changes(&h, &seen) == MK_DONE);
	for (int of_file = 0; of_file < 2; of_file++) {
		CHECK(done(mk_read(&h, "/", "cgroup.procs", before, sizeof before, &info)));
		begin(5000, 0, 0);
		changes_once = is_late = true;
		CHECK(pthread_create(&thread, NULL, change_once_it_waits, &h) == 0);
		if (of_file == 0)
			CHECK(mk_wait(&h, seen, 100, &next) == MK_DONE && next == seen + 1 && timed == 1);
		else
			CHECK(done(mk_wait_file(&h, "/", "cgroup.procs", before, 100, text, sizeof text, &info)) && timed == 1 &&
				strlen(text) == strlen(before) + 2);
		CHECK(pthread_join(thread, &good) == 0 && good != NULL);
		is_late = false;
	}
	return 0;
}

/* MK_FOREVER is no number of milliseconds. */
static int for_ever(void)
{
	uint64_t seen, next;
	pthread_t thread;
	void *good;
	CHECK(mk_changes(&h, &seen) == MK_DONE);
	begin(5000, 0, WAKES);
	CHECK(pthread_create(&thread, NULL, change_once_it_waits, &h) == 0);
	CHECK(mk_wait(&h, seen, MK_FOREVER, &next) == MK_DONE && next == seen + 1);
	CHECK(timed == 0 && untimed > WAKES && pthread_join(thread, &good) == 0 && good != NULL);
	return 0;
}

int main(void)
{
	int (*const all[])(void) = { of_changes, of_a_file, at_once, woken_without_a_change, another_change,
		a_change_at_the_end, for_ever };
	if (mk_open(&h) != MK_DONE || mk_mkdir(&h, "/a", &info) != MK_DONE)
		return 1;
	alarm(PATIENCE_SECONDS);
	return run_and_close(all, sizeof all / sizeof *all);
}
