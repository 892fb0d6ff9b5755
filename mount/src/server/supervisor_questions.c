#include "server/supervisor_questions.h"
#include "channels/questions.h"
#include "channels/supervisor_events.h"
#include "engine/engine.h"
#include "processes/reservations.h"
#include "processes/run_processes.h"
#include "server/cgroup_namespaces.h"
#include "server/freezer.h"
#include "server/mount_tables.h"
#include <errno.h>
#include <pthread.h>
#include <sys/epoll.h>
#include <sys/socket.h>
#include <unistd.h>

/* AT_ONCE: the questions that a socket can have, which are answered at once. QUESTION: the number
   of no table of mounts. TAKEN: events of one look at the epoll set. */
enum { AT_ONCE = 1024, TAKEN = 16, QUESTION = 0 };

static void answer(const struct question *q, struct reply *r)
{
	const char *group = q->names_group ? q->group : NULL;
	switch (q->what) {
	case RESERVE:
		r->fault = run_processes_reserve(q->reserve.parent, group, q->reserve.is_thread, &r->reservation);
		break;
	case BORN:
		r->fault = run_processes_born(q->born.reservation, q->born.child, &r->is_frozen);
		break;
	case CANCEL:
		reservations_drop(q->cancel.reservation);
		break;
	case STOPPED:
		freezer_told(q->stopped.process, q->stopped.stopped);
		break;
	case PREPARE:
		r->fault = cgroup_namespaces_prepare(q->prepare.call, q->prepare.process, group);
		break;
	case NAMESPACE:
		cgroup_namespaces_made(q->made.space, q->made.call);
		break;
	case ORDER:
		freezer_order(&r->order.process, &r->order.stops);
		break;
	case CATCH_UP:
	case EVENTS:
		break;
	}
}

static int supervisor = -1;
static int sources = -1; /* an epoll set: the supervisor's questions, and changes of tables of mounts */
/* The supervisor has ended, or its socket is broken. It changes with the lock. */
static bool is_over;
static _Thread_local bool is_answerer; /* its turns are no operations of the file system */

/* A birth that fails here has no one to tell: a thread has run already. It is then not in the
   hierarchy. */
static void take_events(void)
{
	unsigned reservation;
	pid_t thread;
	bool unused;
	while (supervisor_events_take(&reservation, &thread))
		if (reservation)
			run_processes_born(reservation, thread, &unused);
		else
			run_processes_exited(thread);
}

static void answer_pending(void)
{
	struct question q;
	for (int left = AT_ONCE; left > 0 && !is_over; left--) {
		struct reply r = { 0 };
		ssize_t n = recv(supervisor, &q, sizeof q, MSG_DONTWAIT);
		/* No question is there: nobody waits. */
		if (n < 0 && errno == EAGAIN)
			return;
		is_over = n <= 0;
		if (is_over)
			return;
		take_events(); /* first: they were put before the question was sent, and the answer depends on them */
		answer(&q, &r);
		if (q.what != EVENTS)
			/* The supervisor waits for this answer, so its socket has room. If it has ended, the next recv says so. */
			(void)send(supervisor, &r, sizeof r, MSG_NOSIGNAL);
	}
}

/* In this order: an end that is told later is told by a supervisor that sees this, and waits (link_exited). */
void supervisor_questions_hold_numbers(bool hold)
{
	supervisor_events_set_kills(hold);
	if (hold)
		take_events();
}

/* With the lock: whoever has it knows all that the supervisor has said before. An operation of the file system may change what
   the limits allow. */
static void catch_up(void)
{
	answer_pending();
	take_events();
	/* Then what was allowed in advance is withdrawn: see run_processes_operation. */
	if (!is_answerer)
		run_processes_operation();
}

static void *answer_all(void *unused)
{
	struct epoll_event came[TAKEN];
	bool ended = false;
	(void)unused;
	/* From here on this thread never makes an operation of the file system. */
	is_answerer = true;
	while (!ended) {
		int n = epoll_wait(sources, came, TAKEN, -1); /* if it fails, there may be a question all the same */
		engine_lock(); /* whoever gets the lock answers the supervisor (catch_up): often another thread has done so already */
		for (int i = 0; i < n; i++)
			if (came[i].data.u64 != QUESTION)
				mount_tables_ring((long)came[i].data.u64);
		/* With the lock. When the supervisor has closed its end, this thread ends the server. */
		ended = is_over;
		engine_unlock();
	}
	/* The mount is being unmounted, and its threads end. If something still holds it, they are killed. */
	sleep(1);
	_exit(0);
}

bool supervisor_questions_begin(int end)
{
	pthread_t thread;
	struct epoll_event question = { .events = EPOLLIN, .data.u64 = QUESTION };
	supervisor = end;
	sources = epoll_create1(EPOLL_CLOEXEC);
	if (sources < 0 || epoll_ctl(sources, EPOLL_CTL_ADD, supervisor, &question))
		return false;
	mount_tables_ring_in(sources);
	/* Before the thread and before the mount serves: no other thread exists yet that could take
	   the lock. */
	engine_lock_calls(catch_up);
	errno = pthread_create(&thread, NULL, answer_all, NULL);
	return errno == 0 && pthread_detach(thread) == 0;
}
