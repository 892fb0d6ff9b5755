#include "processes/host_processes.h"
#include "common/cleanup.h"
#include "common/group_paths.h"
#include "common/growing_array.h"
#include "common/kernel.h"
#include "common/own_processes.h"
#include "common/proc_status.h"
#include "engine/engine.h"
#include "processes/members.h"
#include "processes/process_table.h"
#include "processes/reservations.h"
#include "processes/run_processes.h"
#include "processes/tasks.h"
#include "server/watch.h"
#include <dirent.h>
#include <errno.h>
#include <fcntl.h>
#include <signal.h>
#include <stdint.h>
#include <stdio.h>
#include <string.h>
#include <sys/epoll.h>
#include <sys/ioctl.h>
#include <sys/syscall.h>
#include <unistd.h>

enum { PROCESS_ONE = 1 };

/* Set before the mount, and not changed afterwards. NUMBERS: no number means a real process. */
static enum { NUMBERS, ADOPTED, REPORTED } way;

/* Real processes that were adopted, in no order. The descriptor means this process, whoever has
   its number later. */
static struct adopted {
	pid_t pid;
	int fd;
} * adopted;
static size_t adopted_count, adopted_room;
static int deaths = -1; /* an epoll set of their pidfds */

/* Whom the kill under way concerns: from host_processes_note to host_processes_kill_noted, with
   the lock. */
static pid_t *noted;
static size_t noted_count, noted_room;
static char noted_group[PATH_MAX_SAID];

/* False with errno. */
bool host_processes_adopt_all(void)
{
	way = ADOPTED;
	own_processes_raise_files(); /* each process has a descriptor */
	deaths = epoll_create1(EPOLL_CLOEXEC);
	return deaths >= 0;
}

void host_processes_are_reported(void)
{
	way = REPORTED;
}

static bool is_known(pid_t pid)
{
	return is_pid(pid) && process_at(pid)->life != UNKNOWN;
}

/* Linux 6.13. The kernel's own form: `mask` 1 asks for the numbers. */
struct thread_info {
	uint64_t mask, group;
	uint32_t thread, process, others[9];
	int32_t ended;
};
#define GET_THREAD_INFO _IOWR(0xFF, 11, struct thread_info)

pid_t host_processes_process_of(pid_t thread)
{
	struct thread_info info = { .mask = 1 };
	cleanup_fd int fd = open_thread(thread);
	if (fd >= 0 && ioctl(fd, GET_THREAD_INFO, &info) == 0)
		return (pid_t)info.process;
	/* Before Linux 6.13. The caller is in a call of the mount that waits for this answer, so its
	   number is not another's. Without an answer it is taken for a process. */
	long process = proc_status_number(thread, "Tgid:");
	return process > 0 ? (pid_t)process : thread;
}

/* ---------------------------------------------------------------- mount --adopt */

/* The descriptor first: what is found out afterwards is about this process, or it has ended. */
static int remember(pid_t pid)
{
	int fd = open_process(pid);
	if (fd < 0)
		return -errno;
	struct adopted *more = growing_array_make_room(adopted, adopted_count + 1, &adopted_room, sizeof *more);
	if (!more) {
		close(fd);
		return -ENOMEM;
	}
	adopted = more;
	struct epoll_event e = { .events = EPOLLIN, .data.u32 = (unsigned)pid };
	if (epoll_ctl(deaths, EPOLL_CTL_ADD, fd, &e)) {
		close(fd);
		return -ENOMEM;
	}
	adopted[adopted_count++] = (struct adopted){ pid, fd };
	process_at(pid)->life = LIVE;
	return 0;
}

/* To close the descriptor also takes it out of the set. */
static void drop_adopted(pid_t pid)
{
	process_at(pid)->life = UNKNOWN;
	for (size_t i = 0; i < adopted_count; i++)
		if (adopted[i].pid == pid) {
			close(adopted[i].fd);
			adopted[i] = adopted[--adopted_count];
			break;
		}
}

/* It is no child that has just been made: so it is remembered until it is waited for. It leaves
   the set, or each look would find it again. */
static void end_adopted(pid_t pid)
{
	process_at(pid)->life = ENDED;
	for (size_t i = 0; i < adopted_count; i++)
		if (adopted[i].pid == pid)
			epoll_ctl(deaths, EPOLL_CTL_DEL, adopted[i].fd, NULL); /* it cannot fail: it was added */
}

static bool has_ended(pid_t pid)
{
	return is_known(pid) && process_at(pid)->life == ENDED;
}

/* Until its parent has waited for it, a dead child is still listed, and would be taken for a new
   one. */
static void drop_ended(void)
{
	for (size_t i = adopted_count; i-- > 0;)
		if (has_ended(adopted[i].pid) && was_waited_for(adopted[i].fd))
			drop_adopted(adopted[i].pid);
}

/* 0, or -errno if the exit cannot be kept now: then the process exits at a later look. */
static int die(pid_t pid)
{
	char group[PATH_MAX_SAID];
	int fault = engine_where(pid, group, sizeof group);
	bool stood = fault == 0;
	if (fault == -ENOMEM)
		return fault;
	/* Who was killed in the hierarchy has left that already. */
	if (process_at(pid)->life != DYING && (fault = engine_line("exit %d", pid)) && fault != -ESRCH)
		return fault;
	end_adopted(pid);
	if (stood)
		watch_above(group);
	return 0;
}

/* Called once the child's descriptor is open: whatever the number means now, a signal reaches a
   child of an adopted process, or nothing. */
static bool is_child_of(pid_t child, pid_t parent)
{
	return proc_status_number(child, "PPid:") == parent;
}

/* 0 or -ENOMEM */
static int adopt_child(pid_t parent, long child)
{
	/* The server may itself be a child of an adopted shell: it is left out. */
	if (child <= PROCESS_ONE || child >= PIDS || is_known((pid_t)child) || child == getpid())
		return 0;
	int fault = remember((pid_t)child);
	if (fault)
		return fault == -ENOMEM ? fault : 0;
	fault = is_child_of((pid_t)child, parent) ? engine_line("fork %d %ld", parent, child) : -ENOENT;
	/* A child that the hierarchy refuses (pids.max, or a refused parent) is counted once. The child is real all the
	   same, and is remembered. A child that cannot be kept now is adopted at a later look. */
	if (fault && fault != -EAGAIN && fault != -ESRCH && fault != -EEXIST)
		drop_adopted((pid_t)child);
	if (fault == -EAGAIN)
		watch_process(parent);
	return fault == -ENOMEM ? fault : 0;
}

/* The numbers in a list of any length, whose reads end anywhere. A number may be cut by the end of
   a read: so it is collected digit by digit. */
static int adopt_listed(pid_t parent, int list)
{
	char some[4096];
	long child = 0;
	ssize_t n;
	int fault = 0;
	while (fault == 0 && (n = read(list, some, sizeof some)) > 0)
		for (ssize_t i = 0; i < n && fault == 0; i++) {
			bool is_digit = some[i] >= '0' && some[i] <= '9';
			if (!is_digit && child)
				fault = adopt_child(parent, child);
			child = is_digit ? 10 * child + some[i] - '0' : 0;
		}
	return fault;
}

/* The children of each thread. 0 or -ENOMEM */
/* The file `children` has those of one thread, so each thread's is read. `.` and `..` have none. */
static int adopt_children(pid_t pid)
{
	char path[320];
	struct dirent *thread;
	int fault = 0;
	snprintf(path, sizeof path, "%d/task", pid);
	cleanup_directory DIR *threads = opendir(path);
	/* It has ended meanwhile. */
	if (!threads)
		return errno == ENOMEM ? -ENOMEM : 0;
	while (fault == 0 && (thread = readdir(threads))) {
		snprintf(path, sizeof path, "%d/task/%s/children", pid, thread->d_name);
		cleanup_fd int list = open(path, O_RDONLY | O_CLOEXEC);
		if (list >= 0)
			fault = adopt_listed(pid, list);
	}
	return fault;
}

/* 0 or -ENOMEM */
static int drop_disowned(void)
{
	for (size_t i = adopted_count; i-- > 0;) {
		pid_t pid = adopted[i].pid;
		if (process_at(pid)->life != DISOWNED)
			continue;
		int fault = engine_line("exit %d", pid);
		if (fault == -ENOMEM)
			return fault;
		if (fault == 0 || fault == -ESRCH)
			drop_adopted(pid);
	}
	return 0;
}

/* Births before deaths: the line of a fork names the parent, which has to be in the hierarchy. */
static int sweep_adopted(void)
{
	struct epoll_event dead[16];
	int n, fault = drop_disowned();
	if (fault)
		return fault;
	drop_ended();
	for (size_t i = 0; i < adopted_count; i++)
		if (!has_ended(adopted[i].pid) && (fault = adopt_children(adopted[i].pid)))
			return fault;
	/* It never waits. */
	while ((n = epoll_wait(deaths, dead, 16, 0)) > 0)
		for (int i = 0; i < n; i++)
			if ((fault = die((pid_t)dead[i].data.u32)))
				return fault == -ENOMEM ? fault : 0;
	return 0;
}

int host_processes_sweep(void)
{
	if (way == REPORTED)
		return run_processes_sweep();
	return way == ADOPTED && adopted_count ? sweep_adopted() : 0;
}

/* Of this process or of the machine: whoever has the number may be there. */
static bool is_lack(int fault)
{
	return fault == -ENOMEM || fault == -EMFILE || fault == -ENFILE;
}

/* 0 without --adopt: the engine alone decides about a number. */
int host_processes_adopt(pid_t pid, bool *is_new)
{
	char group[PATH_MAX_SAID];
	*is_new = false;
	if (way == REPORTED)
		return run_processes_move(pid);
	if (way != ADOPTED || pid == PROCESS_ONE)
		return 0;
	bool was_known = is_known(pid) && !has_ended(pid);
	/* It was to leave, and is wanted again. */
	if (was_known && process_at(pid)->life == DISOWNED)
		process_at(pid)->life = LIVE;
	/* Whom a kill has reached does not come back. */
	if (was_known && process_at(pid)->life == DYING)
		return 0;
	int fault = engine_where(pid, group, sizeof group);
	if (fault != -ESRCH)
		return fault;
	if (has_ended(pid))
		return 1;
	/* One that is known has left by an undo or an exit, or a limit has refused its birth. */
	fault = was_known ? 0 : remember(pid);
	if (fault)
		return is_lack(fault) ? fault : -ESRCH;
	fault = engine_line("fork %d %d", PROCESS_ONE, pid);
	if (fault && !was_known)
		drop_adopted(pid);
	*is_new = fault == 0;
	return fault;
}

void host_processes_disown(pid_t pid)
{
	/* If its exit can't be kept now, the next look tries it again. */
	process_at(pid)->life = DISOWNED;
	drop_disowned();
}

/* ---------------------------------------------------------------- cgroup.kill */

static int note(pid_t pid, const char *group)
{
	(void)group;
	if (way == REPORTED ? tasks_is_thread(pid) : !is_known(pid) || has_ended(pid))
		return 0; /* a thread is killed with its process */
	pid_t *more = growing_array_make_room(noted, noted_count + 1, &noted_room, sizeof *more);
	if (!more)
		return -ENOMEM;
	noted = more;
	noted[noted_count++] = pid;
	return 0;
}

int host_processes_note(const char *group)
{
	/* All memory is taken before the engine's line: afterwards nothing may fail. */
	noted_count = 0;
	snprintf(noted_group, sizeof noted_group, "%s", way == REPORTED ? group : "");
	return way == NUMBERS ? 0 : members_each(group, true, note);
}

/* A number means the same process until its death is noticed; for an adopted process the descriptor tells. */
/* SIGKILL reaches a frozen process too. */
static void slay(pid_t pid)
{
	if (way == REPORTED) {
		/* the supervisor reports a death before the number is free, so a living one is still this process */
		if (run_processes_kill(pid))
			kill(pid, SIGKILL); /* it fails if the process has ended */
		return;
	}
	/* By the descriptor: the signal reaches this process or nobody. */
	process_at(pid)->life = DYING;
	for (size_t i = 0; i < adopted_count; i++)
		if (adopted[i].pid == pid)
			syscall(SYS_pidfd_send_signal, adopted[i].fd, SIGKILL, NULL, 0); /* it fails if the process has ended */
}

/* Reservations after the processes: a child whose creator was killed is not allowed to run either. */
void host_processes_kill_noted(void)
{
	for (size_t i = 0; i < noted_count; i++)
		slay(noted[i]);
	if (noted_group[0])
		reservations_kill(noted_group);
}
