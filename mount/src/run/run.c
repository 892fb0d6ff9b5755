#include "run/run.h"
#include "channels/advance.h"
#include "channels/descriptor_passing.h"
#include "channels/roots.h"
#include "channels/supervisor_events.h"
#include "channels/table_channel.h"
#include "common/cleanup.h"
#include "common/kernel.h"
#include "common/message.h"
#include "common/own_processes.h"
#include "common/proc_status.h"
#include "engine/engine.h"
#include "helper/helper.h"
#include "helper/mount_root.h"
#include "processes/host_processes.h"
#include "server/freezer.h"
#include "server/operations.h"
#include "server/supervisor_questions.h"
#include "server/watch.h"
#include "supervisor/births.h"
#include "supervisor/calls.h"
#include "supervisor/filter.h"
#include "supervisor/frozen_threads.h"
#include "supervisor/job_control.h"
#include "supervisor/link.h"
#include "supervisor/signals.h"
#include "supervisor/tracer.h"
#include <errno.h>
#include <fcntl.h>
#include <poll.h>
#include <signal.h>
#include <stdio.h>
#include <stdlib.h>
#include <string.h>
#include <sys/mount.h>
#include <sys/prctl.h>
#include <sys/socket.h>
#include <sys/wait.h>
#include <unistd.h>

/* The status of a run (`makhloeum --help`). PATIENCE: how often the server's end is looked for, every 10 milliseconds. */
enum { REFUSED_HERE = 2, NOT_EXECUTABLE = 126, NOT_FOUND = 127, KILLED = 128, PATIENCE = 200 };

/* ---------------------------------------------------------------- what the program inherits */

/* The program starts with the signals as this process got them. Here a child that has ended is waited for. */
static struct signal_action found[SIGNALS + 1];
static sigset_t found_blocked;

static void keep_signals(void)
{
	/* None of these can fail: the signals exist. What the caller blocks stays blocked: it may wait already, for the program. */
	sigprocmask(SIG_SETMASK, NULL, &found_blocked);
	for (int each = 1; each <= SIGNALS; each++)
		(void)signal_action(each, NULL, &found[each]);
	signal(SIGCHLD, SIG_DFL);
}

/* All are blocked from before until the program begins: what came meanwhile then does what it would have done. An action that ignores
   a signal drops one that waits, so the actions come before the supervisor passes any on. */
static void give_actions(void)
{
	/* as above, but for SIGKILL and SIGSTOP */
	for (int each = 1; each <= SIGNALS; each++)
		(void)signal_action(each, &found[each], NULL);
}

/* ---------------------------------------------------------------- the process that serves the mount */

static void nothing(void)
{
}

/* The server's number in the parent; -1 with errno. In the child it does not return. */
static pid_t start_server(int connection, const int ends[2])
{
	char where[32];
	pid_t self = getpid(), pid = fork();
	if (pid)
		return pid;
	own_processes_ignore_signals(); /* it answers no call before, and the program begins after one; libfuse leaves them so */
	/* The supervisor's end: while this process had it, the end of the supervisor would not be seen. */
	close(ends[0]);
	mount_root_end();
	table_channel_be(TABLE_CHANNEL_SERVER);
	setsid(); /* it fails only for the leader of a group, which a child is not */
	snprintf(where, sizeof where, "/dev/fd/%d", connection);
	if (!own_processes_die_with(self) || !proc_status_enter())
		_exit(1);
	if (!supervisor_questions_begin(ends[1])) {
		say("this machine does not allow another thread: %s", strerror(errno));
		_exit(REFUSED_HERE);
	}
	own_processes_raise_files(); /* each zombie has one */
	exit(serve(where, nothing));
}

/* ---------------------------------------------------------------- the program */

/* With --root the program has every capability over what is in its namespace. What is not dumpable belongs to the
   namespace in which makhloeum was started, so the program reaches no uncounted process by ptrace or by its memory. (A
   sanitizer looks for leaks by ptrace.) */
static void hide(bool hidden)
{
#ifndef __SANITIZE_ADDRESS__
	prctl(PR_SET_DUMPABLE, hidden ? 0 : 1, 0, 0, 0); /* it cannot fail: both values exist */
#endif
	(void)hidden;
}

/* Enters its namespaces, waits until it is traced, installs the filter, and becomes the program. The supervisor hears of each step by
   `control`, and answers: the program has its filter only once it is traced, and makes its first call only once the helper has the
   listener. A supervisor that is killed meanwhile ends this process (own_processes_die_with). */
static void become(char **program, int control, const struct wishes *wishes, pid_t supervisor)
{
	char go;
	hide(false);
	if (!own_processes_die_with(supervisor))
		_exit(1);
	if (!run_namespaces_enter_below(wishes) || !inherited_files_enter())
		_exit(REFUSED_HERE);
	give_actions();
	if (write(control, "", 1) != 1 || read(control, &go, 1) != 1)
		_exit(1);
	prctl(PR_SET_PDEATHSIG, 0, 0, 0, 0); /* it cannot fail. From now on it ends with its tracer */
	int listener = filter_install();
	if (listener < 0 || !descriptor_passing_send(control, "", 1, &listener, 1))
		_exit(1);
	close(listener);
	if (read(control, &go, 1) != 1)
		_exit(1);
	sigprocmask(SIG_SETMASK, &found_blocked, NULL); /* it cannot fail */
	run_namespaces_give_up_rights();
	int fault = execute(program[0], program);
	say("%s: %s", program[0], strerror(fault));
	_exit(fault == ENOENT ? NOT_FOUND : NOT_EXECUTABLE);
}

/* ---------------------------------------------------------------- the supervisor */

/* What the supervisor listens to. It asks each that has something once in a turn, and then waits for all. */
struct ears {
	int signals, link, helper, freezer;
};

static void hear_helper(void)
{
	struct helper_reply reply;
	while (helper_take(&reply))
		if (reply.about == CLONE3_ARGUMENTS)
			births_arguments(&reply);
		else
			calls_filters(&reply);
}

/* Of two times to wait; -1: without an end. In milliseconds. */
static int sooner(int one, int other)
{
	return one < 0 || (other >= 0 && other < one) ? other : one;
}

/* The program decides how often it forks and ends, and how long a read of its memory takes. A turn takes the pending
   stops, answers each thread once, and then looks at the signals and the server again. */
static int watch_over(const struct ears *ears, pid_t program)
{
	int status = 0;
	bool orders = false;
	const char *why = NULL;
	struct pollfd from[] = { { .fd = ears->signals, .events = POLLIN }, { .fd = ears->link },
		{ .fd = ears->helper, .events = POLLIN }, { .fd = ears->freezer, .events = POLLIN } };
	for (;;) {
		/* Signals first: tracer_look forgets processes, by whose numbers the senders are known. */
		if (from[0].revents)
			signals_hear(program);
		/* Each turn, whatever the poll said: a SIGCHLD may have come since. */
		bool more = tracer_look();
		if (tracer_has_ended(&status))
			break;
		/* After the stops: a thread may have been killed since its question. */
		if (from[2].revents)
			hear_helper();
		orders = (orders || from[3].revents) && tracer_obey();
		int next = job_control_follow(program); /* it takes signals too, so it comes first */
		next = sooner(next, signals_pass_on(program));
		next = sooner(sooner(sooner(next, births_give_up()), frozen_threads_look_again()), link_wake_late());
		/* The only place where the supervisor waits for the program. */
		if (poll(from, sizeof from / sizeof *from, more || orders ? 0 : next) < 0 && errno != EINTR)
			break;
		for (int i = 1; i < 3; i++)
			if (from[i].revents & (POLLHUP | POLLERR)) {
				why = i == 1 ? "the mount has ended" : "a process of the supervisor has ended";
				kill(program, SIGKILL); /* it fails if the program has ended */
				from[1].fd = from[2].fd = -1;
				break;
			}
	}
	/* The helper after that: a call that waits for it is killed first, and never returns to the program. */
	tracer_end_rest();
	helper_end();
	if (why) /* only now, since it may wait for who reads standard error */
		say("%s", why);
	return WIFEXITED(status) ? WEXITSTATUS(status) : KILLED + WTERMSIG(status);
}

/* Ends a program that was not allowed to run. It is traced or not yet; both end by SIGKILL. */
static int give_up(pid_t program, const char *why)
{
	int status;
	if (why)
		say("%s", why);
	kill(program, SIGKILL); /* it cannot fail: it was not waited for */
	waitpid(program, &status, __WALL); /* no signal interrupts it: none has a handler in a process of makhloeum */
	return REFUSED_HERE;
}

static int supervise(char **program, const struct wishes *wishes, int signals, int link, int freezer)
{
	int control[2];
	char why[160];
	if (socketpair(AF_UNIX, SOCK_STREAM | SOCK_CLOEXEC, 0, control)) {
		say("this machine does not allow a socket: %s", strerror(errno));
		return REFUSED_HERE;
	}
	/* Without a terminal it is -1. NOCTTY: it does not become one. */
	job_control_begin(open("/dev/tty", O_RDWR | O_NOCTTY | O_CLOEXEC));
	/* this process, not the machine's first one, waits for the orphans that the program leaves */
	prctl(PR_SET_CHILD_SUBREAPER, 1, 0, 0, 0); /* it cannot fail */
	sigset_t all, held;
	/* these cannot fail: the signals exist */
	sigfillset(&all);
	/* until the program begins (become), none may end it or be lost */
	sigprocmask(SIG_BLOCK, &all, &held);
	pid_t self = getpid(), pid = fork();
	if (pid == 0) {
		close(control[0]); /* else it would wait forever if the supervisor is killed */
		become(program, control[1], wishes, self);
	}
	sigprocmask(SIG_SETMASK, &held, NULL); /* as above */
	close(control[1]);
	char there;
	/* The program's process is in its namespaces then, and waits. */
	if (pid >= 0 && read(control[0], &there, 1) != 1)
		return give_up(pid, NULL); /* it has said why */
	/* traced before it has its filter: a call that the filter sends to no tracer fails with ENOSYS */
	if (!proc_status_enter() || pid < 0 || !tracer_hold(pid)) {
		snprintf(why, sizeof why, "this machine does not allow %s: %s",
			pid < 0 ? "another process" : "a process to be traced", strerror(errno));
		if (pid >= 0)
			return give_up(pid, why);
		say("%s", why);
		return REFUSED_HERE;
	}
	if (!births_first(pid)) {
		snprintf(why, sizeof why, "the line of the first process cannot be kept: %s", strerror(errno));
		return give_up(pid, why);
	}
	/* The listener comes as soon as the filter is installed. */
	int listener;
	if (write(control[0], "", 1) != 1 || !descriptor_passing_take(control[0], &there, 1, &listener, 1, 0))
		return give_up(pid, "this machine does not allow seccomp notification");
	/* ready before the program goes on, whose first open waits for it */
	int helper = helper_start(listener, pid);
	if (helper < 0) {
		snprintf(why, sizeof why, "this machine does not allow another process or thread: %s", strerror(errno));
		return give_up(pid, why);
	}
	if (write(control[0], "", 1) != 1)
		return give_up(pid, "the program was killed before it began");
	/* The listener stays open here. If the helper is killed, calls of the program wait until it is killed too; without
	   a listener they would fail with ENOSYS. */
	struct ears ears = { signals, link, helper, freezer };
	frozen_threads_begin(freezer);
	return watch_over(&ears, pid);
}

/* Unmounts, which ends the server. */
static void end_server(pid_t server, int end)
{
	int status;
	/* if it fails, the server is looked for all the same */
	cleanup_fd int ended = open_process(server);
	struct pollfd from = { .fd = ended, .events = POLLIN };
	umount2(cgroup_mount, MNT_DETACH); /* it cannot fail: the program is in this namespace only if it may not unmount */
	close(end); /* after that: a second after its last question the server ends whatever it does */
	/* At most two seconds: a server that is held up is killed. */
	for (int i = 0; i < PATIENCE; i++) {
		if (waitpid(server, &status, WNOHANG))
			return; /* it has ended, or was waited for by the tracer */
		kill(server, SIGCONT); /* it cannot fail: it was not waited for. The program may have stopped it */
		poll(&from, 1, 10);
	}
	kill(server, SIGKILL); /* as above */
	waitpid(server, &status, 0);
}

/* Whether there is a tracer, as inside another run. Before this process enters a namespace, so /proc is the caller's. */
static bool is_traced(void)
{
	char line[128];
	long tracer = 0;
	cleanup_stream FILE *f = fopen("/proc/self/status", "re");
	while (f && fgets(line, sizeof line, f))
		if (strncmp(line, "TracerPid:", 10) == 0)
			tracer = strtol(line + 10, NULL, 10);
	return tracer != 0;
}

/* The mount, its companion and its server: the server, or -1 after an error message. The supervisor's part of the
   companion and of the engine ends here. */
static pid_t start_mount(int ends[2], int *freezer, pid_t *companion)
{
	if (!link_make(ends) || !freezer_begin(freezer) || !table_channel_begin()) {
		say("this machine does not allow another descriptor: %s", strerror(errno));
		return -1;
	}
	if (!advance_begin() || !supervisor_events_begin() || !roots_begin()) {
		say("out of memory");
		return -1;
	}
	int connection = run_namespaces_mount(); /* it exists from here on, and answers once the server has begun */
	if (connection < 0)
		return -1;
	cleanup_fd int copy = run_namespaces_copy_mount();
	if (copy < 0 || !mount_root_begin()) {
		say("the mount cannot be opened: %s", strerror(errno));
		return -1;
	}
	if (!watch_begin(cgroup_mount, copy)) {
		say("this machine does not allow another process: %s", strerror(errno));
		return -1;
	}
	close_at(&copy); /* in the server it would keep the mount in use */
	copy = -1;
	pid_t server = start_server(connection, ends);
	int fault = errno;
	/* The mount ends with the last copy of it: only the server has one now. */
	close(connection);
	close(ends[1]);
	table_channel_be(TABLE_CHANNEL_HELPER);
	/* The supervisor only keeps its number, to kill it at the end. */
	*companion = watch_leave();
	own_processes_add(*companion);
	engine_end();
	if (server < 0)
		say("this machine does not allow another process: %s", strerror(fault));
	else
		own_processes_add(server);
	return server;
}

/* The mount does not answer. A server that could not begin has said why, and ends. */
static void say_no_answer(pid_t server, int fault)
{
	int status = 0;
	bool ends = fault == ENOTCONN || fault == ECONNABORTED || fault == ECONNREFUSED;
	if (!ends || waitpid(server, &status, 0) != server || !WIFEXITED(status) || WEXITSTATUS(status) != REFUSED_HERE)
		say("the mount does not answer: %s", strerror(fault));
}

int run_program(char **program, const struct wishes *asked)
{
	struct wishes wishes = *asked;
	int ends[2], freezer;
	pid_t companion;
	keep_signals();
	wishes.extra = true;
	if (is_traced()) {
		say("run does not work inside run, strace or gdb: this process already has a tracer, and can have only one");
		return REFUSED_HERE;
	}
	if (!inherited_files_let_go() || !needs_are_met() || !serve_prepare(&wishes) || !run_namespaces_enter(&wishes))
		return REFUSED_HERE;
	look.uid = geteuid();
	look.gid = getegid();
	look.marked = true;
	look.no_threads = wishes.no_threads;
	hide(true);
	host_processes_are_reported(); /* before the server is forked, which inherits this */
	pid_t server = start_mount(ends, &freezer, &companion);
	if (server < 0)
		return REFUSED_HERE;
	link_use(ends[0], server);
	births_count_threads(!wishes.no_threads);
	int status = REFUSED_HERE, signals = signals_receive();
	/* until its first request, the kernel thinks that nobody owns the mount's root, and nothing can be made there */
	if (stat(cgroup_mount, &(struct stat){ 0 }))
		say_no_answer(server, errno);
	else if (signals < 0)
		say("this machine does not allow another descriptor: %s", strerror(errno));
	else
		status = supervise(program, &wishes, signals, ends[0], freezer);
	/* before the unmount: each of the two keeps the mount in use, and the server ends once nobody does */
	mount_root_end();
	own_processes_kill(companion); /* its descriptor would keep the mount in use */
	end_server(server, ends[0]);
	own_processes_wait();
	return status;
}
