#include "processes/zombies.h"
#include "common/cleanup.h"
#include "common/growing_array.h"
#include "common/kernel.h"
#include "engine/engine.h"
#include "processes/process_table.h"
#include <errno.h>
#include <poll.h>
#include <signal.h>
#include <stdio.h>
#include <sys/epoll.h>
#include <sys/resource.h>
#include <sys/utsname.h>
#include <unistd.h>

/* SCANNED: how many a sweep looks at that need not look at all. TAKEN: events of one call. SPARED:
   descriptors that zombies leave for the server. */
enum { SCANNED = 16, TAKEN = 64, SPARED = 64 };

static struct zombie {
	pid_t pid;
	int fd; /* -1: it could not be opened */
	/* It was waited for: only the line of its exit is missing. */
	bool gone;
} * all;
/* gone_count: those that are `gone`. unnamed_count: those that the kernel does not name.
   next_scanned: the index of the one that was looked at last. */
static size_t count, room, gone_count, unnamed_count, next_scanned;

/* A pidfd hangs up once its process was waited for (Linux 6.9): so the kernel names those to look
   at, among very many. It is an epoll set of all pidfds, each with no event but the hang-up, which
   is always reported. -1: none. */
static int hangups = -1;

static bool kernel_names(void)
{
	/* Asked once; 1 if it can't be known. */
	static unsigned version;
	unsigned major, minor;
	struct utsname name;
	if (version == 0)
		version = uname(&name) == 0 && sscanf(name.release, "%u.%u", &major, &minor) == 2 ? 1000 * major + minor : 1;
	return version >= 6009;
}

/* One that the kernel does not name has to be looked at. */
static bool is_unnamed(const struct zombie *z)
{
	return z->fd < 0 || hangups < 0 || !kernel_names();
}

/* From 1; 0 if it is no zombie. */
static size_t place_of(pid_t pid)
{
	return is_pid(pid) ? process_at(pid)->zombie : 0;
}

/* The last one takes the place of the one that leaves: nothing here depends on their order. To
   close the pidfd also takes it out of the set. */
static void drop(size_t place)
{
	struct zombie *z = &all[place - 1];
	unnamed_count -= is_unnamed(z);
	if (z->fd >= 0)
		close(z->fd);
	gone_count -= z->gone;
	process_at(z->pid)->zombie = 0;
	*z = all[--count];
	if (place <= count)
		process_at(z->pid)->zombie = (unsigned)place;
}

int zombies_make_room(size_t more)
{
	WANTS_LOCK();
	if (count + more <= room)
		return 0;
	struct zombie *at = growing_array_make_room(all, count + more, &room, sizeof *at);
	if (!at)
		return -ENOMEM;
	all = at;
	return 0;
}

static void add(pid_t pid, int fd, bool gone)
{
	if (zombies_make_room(1)) { /* the room was made before the process was: see zombies_make_room */
		if (fd >= 0)
			close(fd);
		/* Then its exit is sent at once. If that line fails, the process counts until the end of
		   the run. */
		engine_line("exit %d", pid);
		return;
	}
	/* The list owns the descriptor. */
	all[count] = (struct zombie){ pid, fd, gone };
	unnamed_count += is_unnamed(&all[count]);
	process_at(pid)->zombie = (unsigned)++count;
	gone_count += gone;
}

/* The program chooses how many of its children it does not wait for, so some descriptors are left
   for the server. Those that have none are looked at by their numbers. */
static bool may_open(void)
{
	struct rlimit most;
	return getrlimit(RLIMIT_NOFILE, &most) == 0 && count + SPARED < most.rlim_cur;
}

static bool has_ended(int process)
{
	/* A pidfd can be read once its process has ended. */
	struct pollfd end = { .fd = process, .events = POLLIN };
	return poll(&end, 1, 0) == 1;
}

void zombies_add(pid_t pid)
{
	bool may = may_open();
	int fd = may ? open_process(pid) : -1;
	struct epoll_event none = { .events = 0, .data.u32 = (unsigned)pid };
	/* ESRCH: the number is free. A process that has not ended is another one. */
	if (may && (fd < 0 ? errno == ESRCH : !has_ended(fd))) {
		/* it was waited for already, and another may have its number */
		close_at(&fd);
		add(pid, -1, true);
		return;
	}
	if (hangups < 0 && count == 0) /* else some are unnamed already */
		hangups = epoll_create1(EPOLL_CLOEXEC);
	/* Without memory for the set it has no descriptor, and is looked at by its number. */
	if (fd >= 0 && hangups >= 0 && epoll_ctl(hangups, EPOLL_CTL_ADD, fd, &none)) {
		close(fd);
		fd = -1;
	}
	add(pid, fd, false);
}

void zombies_add_gone(pid_t pid)
{
	add(pid, -1, true);
}

/* A descriptor means this process, even if another has its number later. Without a descriptor: if another process of the
   run gets the number, its birth shows that this one is gone; a process outside the run that has the number keeps the place
   as long as it lives. */
static bool is_gone(const struct zombie *z)
{
	if (z->fd >= 0)
		return was_waited_for(z->fd);
	return kill(z->pid, 0) && errno == ESRCH;
}

/* 0, or -errno if the line could not be kept: it is tried again. */
static int let_exit(size_t place)
{
	struct zombie *z = &all[place - 1];
	/* First: if the line fails, the next sweep tries it again by this mark. */
	gone_count += !z->gone;
	z->gone = true;
	int fault = engine_line("exit %d", z->pid);
	if (fault && fault != -ESRCH)
		return fault;
	drop(place);
	return 0;
}

/* 0, or -errno if the exit of the one that was looked at could not be kept. */
static int look_at_next(void)
{
	/* From the end towards the start: a zombie that leaves here moves the last one, which was
	   looked at already. */
	next_scanned = next_scanned && next_scanned <= count ? next_scanned - 1 : count - 1;
	struct zombie *z = &all[next_scanned];
	return is_unnamed(z) && is_gone(z) ? let_exit(next_scanned + 1) : 0;
}

/* Those that the kernel names; all whose exit was tried before; and of the others all, or a few in turn. */
static int sweep(bool looks_at_all)
{
	struct epoll_event waited[TAKEN];
	int n, fault = 0;
	do {
		/* each is a zombie: who leaves the list leaves the set */
		n = hangups < 0 ? 0 : epoll_wait(hangups, waited, TAKEN, 0);
		for (int i = 0; i < n; i++)
			if ((fault = let_exit(place_of((pid_t)waited[i].data.u32))))
				return fault;
	} while (n == TAKEN); /* a full answer may not be all */
	/* From the end, since a drop moves the last one. */
	for (size_t place = count; gone_count && place > 0; place--)
		if (all[place - 1].gone && (fault = let_exit(place)))
			return fault;
	if (unnamed_count == 0)
		return 0;
	for (size_t left = looks_at_all || count < SCANNED ? count : SCANNED; left > 0 && count > 0; left--)
		if ((fault = look_at_next()))
			return fault;
	return 0;
}

int zombies_sweep(bool looks_at_all)
{
	return count && sweep(looks_at_all) == -ENOMEM ? -ENOMEM : 0;
}

/* The kernel gives a number away only after the old process was waited for: so its exit is due
   now. */
bool zombies_settle(pid_t pid)
{
	size_t place = place_of(pid);
	return !place || let_exit(place) == 0;
}

bool zombies_has(pid_t pid)
{
	return place_of(pid) != 0;
}

/* A kill in the hierarchy has taken it out: no line follows. */
bool zombies_forget(pid_t pid)
{
	size_t place = place_of(pid);
	if (place)
		drop(place);
	return place != 0;
}

/* Also of those that are gone and whose exit is not kept yet. */
size_t zombies_count(void)
{
	return count;
}
