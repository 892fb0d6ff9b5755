/* sandbox CALL ERRNO PROGRAM WORDS..: executes a program under a filter that refuses one system call with this errno, as a sandbox does.
   CALL is its name; behind it, after a colon, may stand the second argument that alone is refused. */
#include "../filters.h"
#include <limits.h>
#include <stdlib.h>
#include <string.h>

static const struct {
	const char *name;
	long number;
} calls[] = {
#define CALL(name) #name, SYS_##name
	{ CALL(capset) },
	{ CALL(chdir) },
	{ CALL(chroot) },
	{ CALL(clone) },
	{ CALL(clone3) },
	{ CALL(close_range) },
	{ CALL(dup2) },
	{ CALL(epoll_create1) },
	{ CALL(epoll_ctl) },
	{ CALL(eventfd2) },
	{ CALL(fchdir) },
	{ CALL(fcntl) },
	{ CALL(fstatfs) },
	{ CALL(getdents64) },
	{ CALL(getpid) },
	{ CALL(getppid) },
	{ CALL(getrandom) },
	{ CALL(getxattr) },
	{ CALL(kill) },
	{ CALL(memfd_create) },
	{ CALL(mount) },
	{ CALL(move_mount) },
	{ CALL(move_pages) },
	{ CALL(openat2) },
	{ CALL(open_tree) },
	{ CALL(pidfd_getfd) },
	{ CALL(pidfd_open) },
	{ CALL(pidfd_send_signal) },
	{ CALL(pipe2) },
	{ CALL(poll) },
	{ CALL(ppoll) },
	{ CALL(prctl) },
	{ CALL(prlimit64) },
	{ CALL(process_vm_readv) },
	{ CALL(ptrace) },
	{ CALL(pwrite64) },
	{ CALL(readlink) },
	{ CALL(readlinkat) },
	{ CALL(recvfrom) },
	{ CALL(recvmsg) },
	{ CALL(rt_sigaction) },
	{ CALL(rt_sigprocmask) },
	{ CALL(seccomp) },
	{ CALL(sendmsg) },
	{ CALL(sendto) },
	{ CALL(setfsgid) },
	{ CALL(setfsuid) },
	{ CALL(setns) },
	{ CALL(setpgid) },
	{ CALL(setsid) },
	{ CALL(setsockopt) },
	{ CALL(signalfd4) },
	{ CALL(socketpair) },
	{ CALL(statx) },
	{ CALL(umount2) },
	{ CALL(unshare) },
	{ CALL(utimensat) },
	{ CALL(wait4) },
	{ CALL(waitid) },
	{ CALL(writev) },
};

int main(int argc, char **argv)
{
	if (argc < 4)
		return 2;
	const char *second = strchr(argv[1], ':');
	size_t n = second ? (size_t)(second - argv[1]) : strlen(argv[1]);
	unsigned answer = SECCOMP_RET_ERRNO | (unsigned)strtoul(argv[2], NULL, 10);
	for (size_t i = 0; i < sizeof calls / sizeof *calls; i++)
		if (strlen(calls[i].name) == n && strncmp(argv[1], calls[i].name, n) == 0) {
			if (second)
				filter_second(calls[i].number, (unsigned)strtoul(second + 1, NULL, 10), answer);
			else
				filter(calls[i].number, answer);
			execvp(argv[3], argv + 3);
		}
	return 3;
}
