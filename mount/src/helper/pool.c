#include "helper/pool.h"
#include <pthread.h>
#include <unistd.h>

/* MOST: how many calls of each source the program may keep waiting before others are declined.
   QUIET: for so long without a call the thread that watches rests. PATIENCE: for so long a call
   waits for a thread that could watch it. STACK: bytes of each thread's stack; none calls itself. */
enum {
	MOST = 512,
	LOOK = 1, /* milliseconds */
	QUIET = 20, /* looks */
	PATIENCE = 100, /* looks */
	STACK = 256 * 1024
};

/* Written before the threads begin; they live as long as the process, in serve's frame, which
   never returns. */
static struct pool_source *sources;
static pthread_attr_t small;

/* What follows is read and changed with the lock. Who has it waits for nothing but the kernel to make a thread. */
static pthread_mutex_t lock = PTHREAD_MUTEX_INITIALIZER;
static pthread_cond_t begun = PTHREAD_COND_INITIALIZER; /* a call has begun, while the thread that watches rests */
static pthread_cond_t needed = PTHREAD_COND_INITIALIZER; /* the first thread has to watch */
static bool is_watched; /* a thread watches, or has been called to */
static bool rests; /* it waits for a call to begin */
static bool first_is_free; /* the first thread can't end without the process, so it waits until it is needed */

static void *watch_first(void *unused);

/* With the lock, which others may have meanwhile. */
static void wait_for_a_look(void)
{
	pthread_mutex_unlock(&lock);
	usleep(1000 * LOOK);
	pthread_mutex_lock(&lock);
}

/* With the lock. Whether a thread watches, or soon does. */
static bool get_watcher(void)
{
	pthread_t thread;
	if (is_watched)
		return true;
	/* A thread that is there already costs nothing: the user may have few left. */
	if (first_is_free) {
		first_is_free = false;
		pthread_cond_signal(&needed);
		is_watched = true;
	} else
		is_watched = pthread_create(&thread, &small, watch_first, NULL) == 0;
	return is_watched;
}

/* With the lock. If the program keeps no thread waiting, one is free soon: then only threads are
   lacking, or the machine is busy. If none came, the next call waits only for one look, until a
   call has been answered. A thread that answers without one that watches could be kept waiting by
   the program, and with it all later calls of this source. */
static bool may_answer(struct pool_source *s)
{
	/* others have the lock during each look, so this ends after PATIENCE of them */
	for (int left = s->stalled ? 1 : PATIENCE; s->kept >= MOST || !get_watcher(); left--) {
		if (left == 0) {
			s->stalled = true;
			return false;
		}
		wait_for_a_look();
	}
	return true;
}

/* With the lock. The source whose thread was at the same call at the last look; NULL. It is no longer that thread's turn. */
static struct pool_source *take_over(void)
{
	for (struct pool_source *s = sources; s < sources + POOL_SOURCES; s++)
		/* `seen` was set at the last look, so the call has lasted for at least one look. */
		if (s->is_busy && s->seen == s->turn) {
			/* The thread at the call sees by its turn that another one receives now. */
			s->turn++;
			s->is_busy = false;
			s->kept++;
			return s;
		}
	return NULL;
}

/* With the lock. Whether no call has begun since the last look. One that has lasted since then is taken over (take_over). */
static bool is_quiet(void)
{
	bool quiet = true;
	for (struct pool_source *s = sources; s < sources + POOL_SOURCES; s++) {
		quiet &= s->seen == s->turn;
		s->seen = s->turn;
	}
	return quiet;
}

/* With the lock. Returns the source from which this thread has to receive; NULL if the first thread watches in its place. It rests
   after a while without calls: to wake a thread that sleeps for a look costs the next caller time. */
static struct pool_source *watch(void)
{
	int quiet = 0;
	(void)is_quiet(); /* so that a call which lasts already is taken over after one look, not two */
	for (;;) {
		wait_for_a_look();
		struct pool_source *s = take_over();
		if (s) {
			is_watched = false;
			return s;
		}
		quiet = is_quiet() ? quiet + 1 : 0;
		if (quiet < QUIET)
			continue;
		if (first_is_free) {
			is_watched = false;
			get_watcher();
			return NULL;
		}
		quiet = 0;
		rests = true;
		/* Calls wake it: end_rest. */
		while (rests)
			pthread_cond_wait(&begun, &lock);
	}
}

/* With the lock. */
static void end_rest(void)
{
	if (rests) {
		rests = false;
		pthread_cond_signal(&begun);
	}
}

/* With the lock, except while it waits for a call or is at one. Returns once another thread receives in place of this one. */
static void receive_from(struct pool_source *s)
{
	union pool_call call;
	for (;;) {
		pthread_mutex_unlock(&lock);
		/* Without the lock: this waits for the program. */
		while (!s->receive(s->fd, &call))
			pause(); /* the program has ended, and so does this process soon */
		pthread_mutex_lock(&lock);
		/* Before the call: if it is to be declined, that is known before it can block. */
		bool answers = may_answer(s);
		unsigned turn = ++s->turn; /* the one that watches changes it when it receives in this one's place */
		s->is_busy = true;
		end_rest();
		pthread_mutex_unlock(&lock);
		(answers ? s->answer : s->decline)(s->fd, &call);
		pthread_mutex_lock(&lock);
		/* A call was answered: the next one may wait with the whole patience. */
		s->stalled &= !answers;
		/* Another thread receives: this one was kept waiting, and is left over. */
		if (s->turn != turn) {
			s->kept--;
			return;
		}
		s->is_busy = false;
	}
}

/* With the lock. Whether this thread, which was kept waiting, watches from now on; else it ends. */
static bool is_needed(bool is_first)
{
	/* So there are only as many threads as are needed. The first one stays, since its end is that
	   of the process. */
	if (is_watched && !is_first)
		return false;
	if (is_watched) {
		first_is_free = true; /* another thread watches, and ends when it is quiet */
		end_rest(); /* at rest it would not see that it isn't needed */
		while (first_is_free)
			pthread_cond_wait(&needed, &lock);
	}
	is_watched = true;
	return true;
}

/* With the lock. Watches and receives in turn, as long as it is needed. It ends only for a thread
   that is not the first. */
static void work(bool is_first)
{
	struct pool_source *s;
	while ((s = watch())) {
		get_watcher(); /* if there is none, the next call looks for one again */
		receive_from(s);
		if (!is_needed(is_first))
			return;
	}
}

static void *watch_first(void *unused)
{
	pthread_mutex_lock(&lock);
	work(false);
	pthread_mutex_unlock(&lock);
	return unused;
}

static void *receive_first(void *source)
{
	pthread_mutex_lock(&lock);
	receive_from(source);
	if (is_needed(false))
		work(false);
	pthread_mutex_unlock(&lock);
	return NULL;
}

int pool_begin(struct pool_source of[POOL_SOURCES])
{
	pthread_t thread;
	sources = of;
	is_watched = true;
	int fault = pthread_attr_init(&small);
	if (fault == 0)
		fault = pthread_attr_setstacksize(&small, STACK);
	if (fault == 0)
		fault = pthread_attr_setdetachstate(&small, PTHREAD_CREATE_DETACHED);
	if (fault == 0)
		fault = pthread_create(&thread, &small, watch_first, NULL);
	/* The first source is the first thread's (pool_work). */
	for (int i = 1; fault == 0 && i < POOL_SOURCES; i++)
		fault = pthread_create(&thread, &small, receive_first, &sources[i]);
	return fault;
}

void pool_work(void)
{
	pthread_mutex_lock(&lock);
	receive_from(&sources[0]);
	is_needed(true);
	work(true);
	_exit(1); /* it is not reached: the first thread is always needed */
}
