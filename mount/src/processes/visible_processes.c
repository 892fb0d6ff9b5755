#include "processes/visible_processes.h"
#include "common/cleanup.h"
#include "common/kernel.h"
#include "engine/engine.h"
#include "processes/members.h"
#include "processes/tasks.h"
#include "processes/zombies.h"
#include <errno.h>
#include <stdbool.h>
#include <stdint.h>
#include <stdlib.h>
#include <string.h>
#include <sys/ioctl.h>

/* A first thread that ended before the others keeps its number, and has no memory and no namespaces any more. The kernel says so
   without looking up a path; the latter also of a program whose memory this process may not look at. */
static bool has_ended(pid_t process)
{
	if (look_for_memory(process) == 0)
		return false;
	if (errno != EPERM)
		return errno == EINVAL;
	cleanup_fd int fd = open_process(process);
	cleanup_fd int space = fd < 0 ? -1 : ioctl(fd, PIDFD_GET_UTS_NAMESPACE, 0);
	return fd >= 0 && space < 0 && errno == ESRCH;
}

/* cgroup.procs leaves out threads, cgroup.threads a first thread that has ended. */
static bool is_listed(pid_t pid, bool threads)
{
	if (zombies_has(pid))
		return false;
	return threads ? !tasks_next(pid) || tasks_is_thread(pid) || !has_ended(pid) : !tasks_is_thread(pid);
}

/* Leaves out those that are not listed. */
/* In place: what is kept moves to the front. */
static size_t shorten(char *procs, bool threads)
{
	char *to = procs;
	for (char *at = procs, *end; *at; at = end) {
		pid_t pid = (pid_t)strtol(at, &end, 10);
		end += *end == '\n';
		size_t n = (size_t)(end - at);
		if (!is_listed(pid, threads))
			continue;
		memmove(to, at, n);
		to += n;
	}
	return (size_t)(to - procs);
}

static int is_alive(pid_t pid, const char *group)
{
	(void)group;
	return !zombies_has(pid);
}

/* 1 if there is nobody but zombies; 0; -errno. This is asked at each fork and end beside a watch: of many zombies none is looked at if
   more processes are counted than there are zombies, and else none of another group. */
static int are_all_zombies(const char *group)
{
	uint64_t count;
	int fault = engine_current(group, &count);
	if (fault || count > zombies_count())
		return fault;
	int lives = members_each(group, true, is_alive);
	return lives < 0 ? lives : !lives;
}

int visible_processes_text(const char *group, const struct file *file, const char **text, size_t *size)
{
	/* It keeps its memory for the next text. With the lock. */
	static char *own;
	/* Most mounts have no zombie and no thread: then the engine's text is right. */
	if ((zombies_count() == 0 && !tasks_any()) || *size == 0)
		return 0;
	bool threads = strcmp(file->name, "cgroup.threads") == 0,
		 procs = threads || strcmp(file->name, "cgroup.procs") == 0;
	if (!procs && (zombies_count() == 0 || strcmp(file->name, "cgroup.events") != 0))
		return 0;
	char *copy = realloc(own, *size + 1);
	if (!copy)
		return -ENOMEM;
	own = copy;
	memcpy(own, *text, *size);
	own[*size] = 0;
	*text = own;
	if (procs)
		*size = shorten(own, threads);
	else if (strncmp(own, "populated 1", 11) == 0) {
		int dead = are_all_zombies(group);
		if (dead < 0)
			return dead;
		own[10] = dead ? '0' : '1';
	}
	return 0;
}
