#include "common/namespaces.h"
#include "common/cleanup.h"
#include "common/kernel.h"
#include <errno.h>
#include <stdbool.h>
#include <stdio.h>
#include <stdlib.h>
#include <sys/ioctl.h>
#include <sys/stat.h>
#include <unistd.h>

/* Linux 6.11 */
#ifndef NS_GET_PID_FROM_PIDNS
#define NS_GET_PID_FROM_PIDNS _IOR(0xb7, 6, int)
#define NS_GET_PID_IN_PIDNS _IOR(0xb7, 8, int)
#endif

/* A descriptor of a namespace by a descriptor of the thread, so that no path of /proc is looked
   up. errno is EINVAL before Linux 6.9, which opens no threads, and ENOTTY before 6.11. */
static int open_space(pid_t thread, unsigned long which)
{
	cleanup_fd int process = open_thread(thread);
	return process < 0 ? -1 : ioctl(process, which, 0);
}

int namespaces_pid_of(pid_t thread)
{
	/* All namespaces are in one file system of the kernel, so the inode number alone identifies
	   one. */
	struct stat theirs, ours;
	cleanup_fd int space = open_space(thread, PIDFD_GET_PID_NAMESPACE);
	cleanup_fd int own = space < 0 ? -1 : open_space(getpid(), PIDFD_GET_PID_NAMESPACE);
	bool differs = own >= 0 && fstat(space, &theirs) == 0 && fstat(own, &ours) == 0 && theirs.st_ino != ours.st_ino;
	return differs ? steal_fd(&space) : -1;
}

pid_t namespaces_pid_here(int space, pid_t number)
{
	int found = ioctl(space, NS_GET_PID_FROM_PIDNS, number);
	return found > 0 ? (pid_t)found : 0;
}

pid_t namespaces_pid_there(int space, pid_t number)
{
	pid_t found = (pid_t)ioctl(space, NS_GET_PID_IN_PIDNS, number);
	return found > 0 ? found : 0;
}

size_t namespaces_pid_list(int space, const char *list, size_t size, char *out)
{
	size_t done = 0;
	for (const char *at = list, *end = list + size; at < end; at++) {
		/* The shortest line has 2 bytes and the longest 8, a number of seven digits: so the list
		   grows at most by the factor NAMESPACES_MORE. */
		char *feed;
		done += (size_t)sprintf(out + done, "%d\n", namespaces_pid_there(space, (pid_t)strtol(at, &feed, 10)));
		at = feed;
	}
	return done;
}

unsigned namespaces_cgroup_of(pid_t thread)
{
	char path[48];
	struct stat st;
	cleanup_fd int space = open_space(thread, PIDFD_GET_CGROUP_NAMESPACE);
	if (space >= 0)
		return fstat(space, &st) ? 0 : (unsigned)st.st_ino;
	if (errno != EINVAL && errno != ENOTTY)
		return 0;
	/* This is the only look-up of a path in the supervisor. A program can hold it up: see
	   docs/MOUNT.md. */
	/* before Linux 6.11 */
	snprintf(path, sizeof path, "%d/ns/cgroup", thread);
	return stat(path, &st) ? 0 : (unsigned)st.st_ino;
}
