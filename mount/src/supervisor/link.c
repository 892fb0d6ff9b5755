#include "supervisor/link.h"
#include "channels/questions.h"
#include "channels/supervisor_events.h"
#include "common/kernel.h"
#include <errno.h>
#include <signal.h>
#include <stddef.h>
#include <stdio.h>
#include <string.h>
#include <sys/socket.h>
#include <sys/time.h>
#include <unistd.h>

/* MUCH: how many events wake the server. LATE: after how many milliseconds fewer do. */
enum { MUCH = 8, LATE = 1 };

bool link_make(int ends[2])
{
	return socketpair(AF_UNIX, SOCK_SEQPACKET | SOCK_CLOEXEC, 0, ends) == 0;
}

/* The next question is sent only after the reply to the last, so replies need no numbers. -1:
   there is none, or it has failed once. Then every question is answered at once, by what allows
   nothing. */
static int server = -1;
static pid_t server_process;

void link_use(int end, pid_t process)
{
	/* then it is looked whether the program has stopped the server: all its threads wait for the supervisor meanwhile */
	/* 20 milliseconds. */
	struct timeval patience = { 0, 20000 };
	server = end;
	server_process = process;
	/* these cannot fail: sockets have these options */
	setsockopt(end, SOL_SOCKET, SO_RCVTIMEO, &patience, sizeof patience);
	setsockopt(end, SOL_SOCKET, SO_SNDTIMEO, &patience, sizeof patience);
}

/* After a call that failed: whether it is tried again. The program may stop the server, which has
   the same user: then it is continued. EAGAIN is the end of the patience. */
static bool go_on_waiting(void)
{
	if (errno != EAGAIN && errno != EINTR)
		return false;
	kill(server_process, SIGCONT); /* it cannot fail: only the tracer waits for the server, and not meanwhile */
	return true;
}

/* The server answers with the engine's lock, and nobody has that lock while it waits for the program. So the reply comes, unless the
   server was stopped, which go_on_waiting ends, or was killed, which ends the socket. */
static bool hear(struct reply *r)
{
	/* A message of another size is not the server's: then the run cannot go on. */
	ssize_t n;
	do
		n = recv(server, r, sizeof *r, 0);
	while (n < 0 && go_on_waiting());
	return n == sizeof *r;
}

/* Each wake of the server costs more than an event, so several share one. Whoever takes the lock
   reads them earlier. */
static unsigned waiting_events; /* for which the server was not woken yet */
static long long waiting_since;

static bool tell(const struct question *q, size_t size)
{
	ssize_t n;
	waiting_events = 0; /* before it looks at any question, the server takes all events */
	do
		n = server < 0 ? 0 : send(server, q, size, MSG_NOSIGNAL);
	while (n < 0 && go_on_waiting());
	return n == (ssize_t)size;
}

/* Without an answer the caller gets the one that allows nothing. Before the server answers, it
   takes all events that were put. */
static struct reply ask(struct question *q, const char *group)
{
	struct reply r;
	q->names_group = group != NULL;
	snprintf(q->group, sizeof q->group, "%s", group ? group : "");
	size_t size = offsetof(struct question, group) + strlen(q->group) + 1;
	if (tell(q, size) && hear(&r))
		return r;
	server = -1; /* for good: a reply that came late would be taken for the next one's */
	return (struct reply){ .fault = -EAGAIN };
}

/* The caller's thread stays at its stop until the answer, and so does every other thread that is
   at a stop by then. */
int link_reserve(pid_t parent, const char *group, bool is_thread, unsigned *reservation)
{
	struct reply r = ask(&(struct question){ .what = RESERVE, .reserve = { parent, is_thread } }, group);
	*reservation = r.fault == 0 ? r.reservation : 0;
	return r.fault;
}

/* The child stays at its first stop meanwhile. */
int link_born(unsigned reservation, pid_t child, bool *frozen)
{
	struct reply r = ask(&(struct question){ .what = BORN, .born = { reservation, child } }, NULL);
	*frozen = r.is_frozen;
	return r.fault;
}

void link_cancel(unsigned reservation)
{
	(void)ask(&(struct question){ .what = CANCEL, .cancel = { reservation } }, NULL);
}

/* Until the server has taken all events. It is one of the few waits of the supervisor, and is
   bounded as `hear` is. */
static void wait_for_server(void)
{
	(void)ask(&(struct question){ .what = CATCH_UP }, NULL);
}

static void wake_server(void)
{
	struct question q = { .what = EVENTS };
	if (!tell(&q, WITHOUT_TEXT))
		server = -1;
}

/* If there is no room, the server makes some before it answers. */
static void put_event(unsigned reservation, pid_t thread)
{
	while (server >= 0 && !supervisor_events_put(reservation, thread))
		wait_for_server();
	if (waiting_events == 0)
		waiting_since = milliseconds();
	/* The server reads them without a wake when it next has the lock. This wakes a server that has
	   nothing else to do. */
	if (++waiting_events == MUCH)
		wake_server();
}

void link_thread_born(unsigned reservation, pid_t thread)
{
	put_event(reservation, thread);
}

/* As an end of a process, but no number is held: nobody sends a signal to a thread. */
void link_thread_ended(pid_t thread)
{
	put_event(0, thread);
}

/* The event first. A server that kills says so before it takes the events: so either it takes this one and does not send a signal to the
   number, or it is seen here that it kills. Then the caller, who is about to free the number, waits. */
void link_exited(pid_t pid)
{
	put_event(0, pid);
	if (supervisor_events_is_killing())
		wait_for_server();
}

int link_wake_late(void)
{
	if (waiting_events > 0 && milliseconds() - waiting_since > LATE)
		wake_server();
	return waiting_events > 0 ? LATE : -1;
}

/* The answer says nothing. It is waited for, so that the next question finds this one handled. */
void link_stopped(pid_t pid, bool stopped)
{
	(void)ask(&(struct question){ .what = STOPPED, .stopped = { pid, stopped } }, NULL);
}

/* The server may be asked again at once: each answer is one order. */
bool link_order(pid_t *pid, bool *stop)
{
	struct reply r = ask(&(struct question){ .what = ORDER }, NULL);
	*pid = r.order.process;
	*stop = r.order.stops;
	return r.fault == 0 && *pid > 0;
}

int link_prepare(unsigned call, pid_t process, const char *group)
{
	return ask(&(struct question){ .what = PREPARE, .prepare = { call, process } }, group).fault;
}

/* It takes what link_prepare has stored, or drops it. */
void link_namespace(unsigned number, unsigned call)
{
	(void)ask(&(struct question){ .what = NAMESPACE, .made = { call, number } }, NULL);
}
