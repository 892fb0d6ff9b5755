/* Calls of a signal handler that interrupts a call of its own thread: each is refused, also on a handle that is closed or another's,
   and the interrupted call does what it does. The signal comes at each allocation of the call. So is a call during a fork. Link with
   -Wl,--wrap=malloc,--wrap=calloc,--wrap=realloc. Exits with the number of the first check that fails, or 0, and prints how many held.
   A hang ends it by SIGALRM. */
#include "check.h"
#include <pthread.h>
#include <signal.h>
#include <sys/wait.h>
#include <unistd.h>

enum { PATIENCE_SECONDS = 120 };

void *__real_malloc(size_t size);
void *__real_calloc(size_t count, size_t size);
void *__real_realloc(void *at, size_t size);
void *__wrap_malloc(size_t size);
void *__wrap_calloc(size_t count, size_t size);
void *__wrap_realloc(void *at, size_t size);

static bool interrupts;
static mk_handle other; /* open, and no call on it is running */
static int handled, wrong; /* how often the handler ran, and where first a call was not refused */

static void come(void)
{
	if (interrupts)
		raise(SIGUSR1);
}

void *__wrap_malloc(size_t size)
{
	come();
	return __real_malloc(size);
}

void *__wrap_calloc(size_t count, size_t size)
{
	come();
	return __real_calloc(count, size);
}

void *__wrap_realloc(void *at, size_t size)
{
	come();
	return __real_realloc(at, size);
}

static bool is_closed(const mk_handle *it)
{
	return it->slot == NULL && it->serial == 0;
}

/* The first call that is not refused, counted from 1; none is made after it, since it may have changed what this thread holds. */
static int not_refused(void)
{
	mk_handle fresh = { 0 };
	mk_info told;
	mk_text one;
	char text[8];
	size_t depth = 0;
	if (mk_open(&fresh) != MK_BUSY || !is_closed(&fresh))
		return 1;
	if (mk_copy(&other, &fresh) != MK_BUSY || !is_closed(&fresh))
		return 2;
	if (mk_close(&other) != MK_BUSY)
		return 3;
	if (mk_mkdir(&other, "/b", &told) != MK_BUSY || told.error != EDEADLK)
		return 4;
	if (mk_read_many(&other, "/b\0pids.max", 1, &one, text, sizeof text, &told) != MK_BUSY || told.error != EDEADLK)
		return 7;
	return mk_depth(&other, &depth) != MK_BUSY ? 5 : 0;
}

/* Whether the child of a fork ends well. It makes calls, unless the fork is that of a handler: then it may not. */
static bool child_ends_well(bool calls)
{
	pid_t child = fork();
	if (child == 0) {
		alarm(PATIENCE_SECONDS);
		if (calls &&
			(mk_mkdir(&h, "/child", &info) != MK_DONE || mk_close(&other) != MK_DONE || mk_open(&other) != MK_DONE))
			_exit(1);
		_exit(0);
	}
	int status;
	return child > 0 && waitpid(child, &status, 0) == child && WIFEXITED(status) && WEXITSTATUS(status) == 0;
}

static bool forks; /* the handler forks at the next signal */

static void handler(int number)
{
	(void)number;
	handled++;
	if (wrong == 0)
		wrong = not_refused();
	if (forks && !child_ends_well(false))
		wrong = 6;
	forks = false;
}

static bool looks; /* calls are made while a fork has locked every engine */

static void while_all_are_locked(void)
{
	if (!looks)
		return;
	handled++;
	wrong = not_refused();
}

/* Before the library prepares for forks: what was prepared first runs last. */
__attribute__((constructor(101))) static void prepare_first(void)
{
	if (pthread_atfork(while_all_are_locked, NULL, NULL) != 0)
		abort();
}

/* Whether the handler ran since the last time, and each of its calls was refused. */
static bool were_refused(void)
{
	bool good = handled > 0 && wrong == 0;
	if (!good)
		fprintf(stderr, "the handler ran %d times; call %d was not refused\n", handled, wrong);
	handled = 0;
	return good;
}

static int calls(void)
{
	size_t depth;
	CHECK(mk_open(&other) == MK_DONE && mk_mkdir(&other, "/a", &info) == MK_DONE);
	CHECK(sigaction(SIGUSR1, &(struct sigaction){ .sa_handler = handler }, NULL) == 0);
	interrupts = true;
	CHECK(done(mk_mkdir(&h, "/a", &info)) && were_refused());
	CHECK(done(mk_attach(&h, "/a", 1, &info)) && were_refused());
	CHECK(done(mk_undo_to(&h, 1, &info)) && were_refused());
	mk_handle copy = { 0 };
	CHECK(mk_open(&copy) == MK_DONE && were_refused() && mk_close(&copy) == MK_DONE);
	CHECK(mk_copy(&h, &copy) == MK_DONE && were_refused() && mk_close(&copy) == MK_DONE);
	interrupts = false;
	CHECK(mk_depth(&h, &depth) == MK_DONE && depth == 1 && mk_depth(&other, &depth) == MK_DONE && depth == 1);
	CHECK(mk_mkdir(&other, "/b", &info) == MK_DONE && mk_close(&other) == MK_DONE);
	return 0;
}

/* A handler that interrupted a call must not fork. If it does all the same, nobody waits for ever, neither then nor at a later fork. */
static int forks_of_a_handler(void)
{
	CHECK(mk_open(&other) == MK_DONE);
	for (int round = 0; round < 2; round++) {
		interrupts = forks = true;
		CHECK(done(mk_mkdir(&h, "/f", &info)) && were_refused() && !forks);
		interrupts = false;
		CHECK(child_ends_well(true) && done(mk_rmdir(&h, "/f", &info)));
	}
	return 0;
}

static int calls_during_a_fork(void)
{
	looks = true;
	CHECK(child_ends_well(true) && were_refused());
	looks = false;
	CHECK(mk_close(&other) == MK_DONE);
	return 0;
}

int main(void)
{
	int (*const parts[])(void) = { calls, forks_of_a_handler, calls_during_a_fork };
	if (mk_open(&h) != MK_DONE)
		return 1;
	alarm(PATIENCE_SECONDS);
	return run_and_close(parts, sizeof parts / sizeof *parts);
}
