#include "helper/helper.h"
#include "channels/table_channel.h"
#include "common/own_processes.h"
#include "common/proc_status.h"
#include "helper/mount_root.h"
#include "helper/path_lookup.h"
#include "helper/pool.h"
#include "helper/program_filter.h"
#include "helper/program_memory.h"
#include "helper/user_notification.h"
#include <errno.h>
#include <signal.h>
#include <stddef.h>
#include <stdio.h>
#include <string.h>
#include <sys/socket.h>
#include <unistd.h>

/* READS: how many answers of the helper the program may keep waiting before others are not asked for. */
enum { READS = 512 };

static int to_helper = -1;
static pid_t process = -1;
/* How many questions have no answer yet. Only the supervisor counts. */
static int reading;

/* ---------------------------------------------------------------- the supervisor's side */

void helper_end(void)
{
	own_processes_kill(process);
}

/* Returns false if the helper can't take another one now. If it has ended, so does the program soon, and waits without an answer
   until then. */
static bool request(const struct helper_question *q)
{
	if (reading == READS)
		return false;
	/* the supervisor waits for nobody: a full socket is as good as an answer that no thread has time for */
	bool sent = send(to_helper, q, sizeof *q, MSG_NOSIGNAL | MSG_DONTWAIT) == sizeof *q;
	if (!sent && errno != EPIPE && errno != ECONNRESET)
		return false;
	reading++;
	return true;
}

bool helper_read(unsigned long ticket, pid_t thread, unsigned long at, size_t size)
{
	struct helper_question q = { .about = CLONE3_ARGUMENTS,
		.ticket = ticket,
		.at = at,
		.size = size,
		.thread = thread };
	return request(&q);
}

bool helper_count_filters(pid_t thread)
{
	struct helper_question q = { .about = FILTER_COUNT, .thread = thread };
	return request(&q);
}

bool helper_copy_filter(pid_t thread, unsigned long at, unsigned long stack)
{
	struct helper_question q = { .about = NEW_FILTER, .at = at, .stack = stack, .thread = thread };
	return request(&q);
}

bool helper_take(struct helper_reply *reply)
{
	/* It never waits: the poll of watch_over says when there is something. */
	ssize_t n = recv(to_helper, reply, sizeof *reply, MSG_DONTWAIT);
	if (n <= (ssize_t)offsetof(struct helper_reply, group))
		return false;
	reading--;
	return true;
}

/* ---------------------------------------------------------------- the helper's */

static void read_arguments(const struct helper_question *q, struct helper_reply *r)
{
	/* If nobody may read the program's file, its memory is not read: C libraries then use `clone`. The size fits
	   (registers_check_clone_size). */
	if (!program_memory_read(q->thread, q->at, &r->args, q->size))
		r->fault = errno == EPERM ? -ENOSYS : -EFAULT;
	else if (r->args.flags & CLONE_INTO_CGROUP)
		r->group_fault = mount_root_group_of(q->thread, (int)r->args.cgroup, r->group);
}

/* It waits for the supervisor, in the thread that receives from this source. */
static bool receive_question(int end, union pool_call *call)
{
	if (recv(end, &call->question, sizeof call->question, 0) != sizeof call->question)
		_exit(0); /* the supervisor has ended */
	return true;
}

static void send_reply(int end, const struct helper_reply *r)
{
	size_t size = offsetof(struct helper_reply, group) + strlen(r->group) + 1;
	/* there is room, or soon will be: the supervisor has at most READS questions without an answer, and takes answers in each turn */
	if (send(end, r, size, MSG_NOSIGNAL) != (ssize_t)size)
		_exit(0);
}

/* The thread may have been killed, and another may have its number: then no birth has the ticket any more. */
static void answer_question(int end, const union pool_call *call)
{
	const struct helper_question *q = &call->question;
	struct helper_reply r;
	/* Not the whole path, which is large: only what is sent. */
	memset(&r, 0, offsetof(struct helper_reply, group) + 1);
	r.about = q->about;
	r.ticket = q->ticket;
	r.thread = q->thread;
	if (q->about == CLONE3_ARGUMENTS)
		read_arguments(q, &r);
	else if (q->about == FILTER_COUNT)
		r.filters = proc_status_number(q->thread, "Seccomp_filters:");
	else
		r.copy = program_filter_copy(q->thread, q->at, q->stack);
	send_reply(end, &r);
}

/* C libraries then use `clone`; the kernel does not say how many filters there are; and a filter is added as it is. */
/* In place of an answer that could wait. */
static void decline_question(int end, const union pool_call *call)
{
	const struct helper_question *q = &call->question;
	struct helper_reply r = { .about = q->about,
		.ticket = q->ticket,
		.thread = q->thread,
		.filters = -1,
		.fault = -ENOSYS };
	send_reply(end, &r);
}

static bool receive_notification(int listener, union pool_call *call)
{
	return user_notification_next(listener, &call->notification);
}

static void answer_notification(int listener, const union pool_call *call)
{
	user_notification_answer(listener, &call->notification);
}

static void decline_notification(int listener, const union pool_call *call)
{
	user_notification_let_through(listener, &call->notification);
}

/* The kernel finds most files for the helper as it finds them for the program (path_lookup_find), from the same root. A superuser's is
   in a mount namespace of its own. */
/* Once, before the program runs. Later changes of its root are found by channels/roots.h. */
static bool share_root(pid_t program)
{
	char path[40];
	snprintf(path, sizeof path, "%d/root", program);
	return chroot(path) == 0 || errno == ENOENT || errno == ESRCH; /* it has ended already, and makes no call */
}

/* Says first whether it can: 0 or an errno. */
static void serve(int listener, int end, pid_t program)
{
	struct pool_source sources[POOL_SOURCES] = {
		{ .fd = end, .receive = receive_question, .answer = answer_question, .decline = decline_question },
		{ .fd = listener,
			.receive = receive_notification,
			.answer = answer_notification,
			.decline = decline_notification },
	};
	own_processes_raise_files(); /* each call that waits has a few */
	own_processes_raise_sizes(); /* it writes texts of /proc, which are no files for the caller's limit */
	/* Other descriptors of the supervisor would keep the mount and the other ends of its pipes open. These four are there. */
	int fd = STDERR_FILENO + 1;
	for (int left = 4; left > 0; fd++)
		if (fd == listener || fd == end || fd == mount_root_descriptor() || fd == table_channel_socket())
			left--;
		else
			close(fd); /* it fails where there is none */
	close_range((unsigned)fd, ~0U, 0);
	int fault = share_root(program) && mount_root_find_hidden() ? 0 : errno;
	if (fault == 0) {
		path_lookup_begin(program);
		fault = pool_begin(sources);
	}
	/* The supervisor waits for this message before it lets the program run. */
	if (send(end, &fault, sizeof fault, MSG_NOSIGNAL) != sizeof fault || fault)
		_exit(1);
	pool_work();
}

/* The child has begun, or is about to end: 0 or an errno. The program does not run yet, and keeps nobody waiting. */
static int fault_of(int child)
{
	int fault;
	return recv(child, &fault, sizeof fault, 0) == sizeof fault ? fault : ECHILD;
}

int helper_start(int listener, pid_t program)
{
	int ends[2];
	pid_t self = getpid();
	sigset_t all, none, before;
	if (socketpair(AF_UNIX, SOCK_SEQPACKET | SOCK_CLOEXEC, 0, ends))
		return -1;
	/* these cannot fail: the signals exist */
	sigfillset(&all);
	sigemptyset(&none);
	sigprocmask(SIG_BLOCK, &all, &before);
	process = fork();
	if (process == 0) {
		/* where the kernel shares processors out among sessions, many processes of the program don't leave it less */
		setsid(); /* it fails only for the leader of a group, which a child is not */
		/* The supervisor ignores all. Blocked ones of real time would wait, and fill the queue that the user's processes share */
		sigprocmask(SIG_SETMASK, &none, NULL); /* as above */
		if (own_processes_die_with(self))
			serve(listener, ends[1], program);
		_exit(1);
	}
	int fault = process < 0 ? errno : 0;
	sigprocmask(SIG_SETMASK, &before, NULL); /* as above */
	close(ends[1]);
	if (fault == 0)
		fault = fault_of(ends[0]);
	if (fault) {
		close(ends[0]);
		errno = fault;
		return -1;
	}
	own_processes_add(process);
	to_helper = ends[0];
	return to_helper;
}
