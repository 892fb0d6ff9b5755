/* noticed WHAT ..: small differences by which a program could notice that it does not run on a kernel, for noticed.py. */
#include "../filters.h"
#include <fcntl.h>
#include <linux/sched.h>
#include <poll.h>
#include <signal.h>
#include <stdbool.h>
#include <stdlib.h>
#include <string.h>
#include <sys/resource.h>
#include <time.h>

#ifndef P_PIDFD
#define P_PIDFD 3
#endif

/* ---------------------------------------------------------------- children */

/* How many children of many have no status yet once their pidfd can be read: by waitid, by waitpid, by waitpid of any child, and of
   any in this group of processes. */
static int pidfds(void)
{
	enum { WAYS = 4 };
	int missing[WAYS] = { 0 };
	for (int i = 0; i < 500 * WAYS; i++) {
		pid_t pid = fork();
		if (pid == 0)
			_exit(7);
		struct pollfd end = { .fd = (int)syscall(SYS_pidfd_open, pid, 0), .events = POLLIN };
		siginfo_t info = { .si_pid = 0 };
		int status = 0, way = i % WAYS;
		poll(&end, 1, -1);
		if (way == 0 ? waitid(P_PIDFD, (id_t)end.fd, &info, WEXITED | WNOHANG) || info.si_pid != pid
					 : waitpid(way == 1   ? pid
							   : way == 2 ? -1
										  : 0,
						   &status, WNOHANG) != pid) {
			missing[way]++;
			waitpid(pid, NULL, 0);
		}
		close(end.fd);
	}
	printf("%d %d %d %d\n", missing[0], missing[1], missing[2], missing[3]);
	return 0;
}

#if defined(__x86_64__)
/* A call, with the registers of its arguments before and after it. */
static long call_with(long number, unsigned long regs[6])
{
	register unsigned long r10 __asm__("r10") = regs[3], r8 __asm__("r8") = regs[4], r9 __asm__("r9") = regs[5];
	long result;
	__asm__ volatile("syscall"
					 : "=a"(result), "+D"(regs[0]), "+S"(regs[1]), "+d"(regs[2]), "+r"(r10), "+r"(r8), "+r"(r9)
					 : "0"(number)
					 : "rcx", "r11", "memory");
	regs[3] = r10;
	regs[4] = r8;
	regs[5] = r9;
	return result;
}

/* The registers of a creator and of its child after each call that makes a child, and after calls that fail. Prints the calls that
   change one, or do not fail so. */
static int registers(void)
{
	struct clone_args args = { .exit_signal = SIGCHLD };
	struct sock_filter code[] = { BPF_STMT(BPF_RET | BPF_K, SECCOMP_RET_ALLOW) };
	const struct sock_fprog program = { 1, code };
	const struct {
		const char *name;
		long number;
		unsigned long regs[6];
		long fault; /* 0: it makes a child */
	} some[] = {
		{ "fork", SYS_fork, { 11, 12, 13, 14, 15, 16 }, 0 },
		{ "clone", SYS_clone, { SIGCHLD, 0, 23, 24, 25, 26 }, 0 },
		{ "clone,CLONE_UNTRACED", SYS_clone, { CLONE_UNTRACED | SIGCHLD, 0, 23, 24, 25, 26 }, 0 },
		{ "clone,CLONE_VFORK", SYS_clone, { CLONE_VFORK | SIGCHLD, 0, 23, 24, 25, 26 }, 0 },
		{ "clone3", SYS_clone3, { (unsigned long)&args, sizeof args, 33, 34, 35, 36 }, 0 },
		{ "clone,refused", SYS_clone, { CLONE_SIGHAND, 0, 43, 44, 45, 46 }, EINVAL },
		{ "clone3,too-small", SYS_clone3, { (unsigned long)&args, 8, 53, 54, 55, 56 }, EINVAL },
		{ "clone3,nothing", SYS_clone3, { 0, sizeof args, 63, 64, 65, 66 }, EFAULT },
		{ "unshare", SYS_unshare, { CLONE_NEWCGROUP, 72, 73, 74, 75, 76 }, EPERM },
		{ "prctl", SYS_prctl, { PR_SET_SECCOMP, 82, 83, 84, 85, 86 }, EINVAL },
		{ "wait4", SYS_wait4, { -1UL, 0, WNOHANG, 0, 95, 96 }, ECHILD },
		{ "seccomp", SYS_seccomp, { SECCOMP_SET_MODE_FILTER, 1UL << 30, (unsigned long)&program, 104, 105, 106 },
			EINVAL },
	};
	for (size_t i = 0; i < sizeof some / sizeof *some; i++) {
		unsigned long regs[6];
		int status = 0;
		memcpy(regs, some[i].regs, sizeof regs);
		long pid = call_with(some[i].number, regs);
		bool differ = memcmp(regs, some[i].regs, sizeof regs) != 0;
		if (pid == 0)
			_exit(differ);
		if (pid > 0)
			waitpid((pid_t)pid, &status, 0);
		if (differ || status || (some[i].fault ? pid != -some[i].fault : pid < 0))
			printf("%s ", some[i].name);
	}
	return 0;
}
#else
static int registers(void)
{
	return 0;
}
#endif

/* The processes of makhloeum. */
static char **ours;

/* The processor time that this process, its children and makhloeum have used: other work on the machine hardly changes it. */
static double used(void)
{
	struct rusage children;
	double sum = (double)clock() / CLOCKS_PER_SEC;
	getrusage(RUSAGE_CHILDREN, &children);
	sum += (double)(children.ru_utime.tv_sec + children.ru_stime.tv_sec) +
		(double)(children.ru_utime.tv_usec + children.ru_stime.tv_usec) / 1e6;
	for (int i = 0; ours[i]; i++) {
		struct timespec t = { 0, 0 };
		clock_gettime(~atoi(ours[i]) * 8 + 2, &t); /* the clock of a process, as the kernel numbers it */
		sum += (double)t.tv_sec + (double)t.tv_nsec / 1e9;
	}
	return sum;
}

/* Of some rounds the cheapest. */
static double time_of_forks(void)
{
	double least = 1e9;
	for (int round = 0; round < 20; round++) {
		double begin = used();
		for (int i = 0; i < 10; i++) {
			pid_t pid = fork();
			if (pid == 0)
				_exit(0);
			waitpid(pid, NULL, 0);
		}
		double cost = used() - begin;
		if (cost < least)
			least = cost;
	}
	return least;
}

static long number_in(const char *file)
{
	char text[64] = "";
	int fd = open(file, O_RDONLY);
	if (fd < 0 || read(fd, text, sizeof text - 1) < 0)
		return -1;
	close(fd);
	return strtol(text, NULL, 10);
}

/* Zombies of this process, which is in /a alone: how many are counted beside it; then all are waited for: what is counted;
   then the forks of fifty that fail at the limit of two processes. Whether a table of mounts can be read beside them; and how much
   longer a fork takes. */
static int zombies(int count)
{
	double without = time_of_forks();
	pid_t *all = calloc((size_t)count, sizeof *all);
	for (int i = 0; i < count; i++)
		if ((all[i] = fork()) == 0)
			_exit(0);
	for (int i = 0; i < count; i++)
		waitid(P_PID, (id_t)all[i], NULL, WEXITED | WNOWAIT);
	long beside = number_in("/sys/fs/cgroup/a/pids.current");
	double with = time_of_forks();
	char byte;
	int table = open("/proc/self/mounts", O_RDONLY);
	int is_shown = table >= 0 && read(table, &byte, 1) == 1;
	close(table);
	for (int i = 0; i < count; i++)
		waitpid(all[i], NULL, 0);
	long after = number_in("/sys/fs/cgroup/a/pids.current");
	for (int i = 0; i < count; i++)
		if ((all[i] = fork()) == 0)
			_exit(0);
	for (int i = 0; i < count; i++)
		waitid(P_PID, (id_t)all[i], NULL, WEXITED | WNOWAIT);
	int limit = open("/sys/fs/cgroup/a/pids.max", O_WRONLY);
	if (write(limit, "2", 1) != 1)
		return 1;
	for (int i = 0; i < count; i++)
		waitpid(all[i], NULL, 0);
	int failed = 0;
	for (int i = 0; i < 50; i++) {
		pid_t pid = fork();
		if (pid == 0)
			_exit(0);
		failed += pid < 0;
		if (pid > 0)
			waitpid(pid, NULL, 0);
	}
	printf("%ld %ld %d %d %.2f\n", beside, after, failed, is_shown, with / without);
	return 0;
}

/* ---------------------------------------------------------------- seccomp */

/* Calls that a filter sends to a tracer, which this process does not have: each fails with ENOSYS. Prints those that do not. */
static int traces(void)
{
	static const struct tried some[] = {
		{ "getppid", SYS_getppid, { 0 } },
		{ "unshare", SYS_unshare, { 0 } },
		{ "clone", SYS_clone, { SIGCHLD } },
		{ "waitid", SYS_waitid, { P_ALL, 0, 0, WNOHANG | WEXITED } },
		{ "prctl", SYS_prctl, { PR_GET_DUMPABLE } },
	};
	static const unsigned words[] = { 0, 7, 0xffff };
	for (size_t i = 0; i < 3 * sizeof some / sizeof *some; i++)
		put_if_made(&some[i / 3], words[i % 3]);
	return 0;
}

static volatile sig_atomic_t handled;

static void on_signal(int which)
{
	handled = which;
}

/* What a process in strict mode does, and how it ends. */
static int strict_end(int way, int does)
{
	int to[2], back[2], status;
	char byte = 0;
	signal(SIGUSR1, on_signal);
	if (pipe(to) || pipe(back))
		return -1;
	pid_t pid = fork();
	if (pid == 0) {
		static const unsigned long above = 1UL << 32; /* the kernel takes an int there */
		long result = way == 0 ? prctl(PR_SET_SECCOMP, SECCOMP_MODE_STRICT, 0, 0, 0)
			: way == 1         ? syscall(SYS_seccomp, SECCOMP_SET_MODE_STRICT, 0, NULL)
			: way == 2         ? syscall(SYS_prctl, PR_SET_SECCOMP | above, SECCOMP_MODE_STRICT, 0, 0, 0)
							   : syscall(SYS_seccomp, SECCOMP_SET_MODE_STRICT | above, above, NULL);
		for (int i = 0; i < 100; i++)
			if (result || write(to[1], "x", 1) != 1 || read(to[0], &byte, 1) != 1)
				syscall(SYS_exit, 99);
		if (does == 1)
			syscall(SYS_getpid);
		if (does == 2)
			syscall(SYS_openat, AT_FDCWD, "/", O_RDONLY);
		if (does == 3)
			syscall(SYS_clone, SIGCHLD, 0, 0, 0, 0);
		if (does == 4)
			syscall(SYS_exit_group, 5);
		if (does == 5) { /* a handler returns to the read, which gets a byte afterwards */
			if (write(back[1], "x", 1) != 1 || read(to[0], &byte, 1) != 1 || !handled)
				syscall(SYS_exit, 98);
			syscall(SYS_exit, 6);
		}
		syscall(SYS_exit, 5);
	}
	close(back[1]);
	if (does == 5 && read(back[0], &byte, 1) == 1 && (kill(pid, SIGUSR1) || write(to[1], "y", 1) != 1))
		return -1;
	close(back[0]);
	close(to[0]);
	close(to[1]);
	waitpid(pid, &status, 0);
	return WIFEXITED(status) ? WEXITSTATUS(status) : 1000 + WTERMSIG(status);
}

static int strict(void)
{
	for (int way = 0; way < 4; way++)
		for (int does = 0; does < 6; does++)
			printf("%d ", strict_end(way, does));
	printf("%d ", syscall(SYS_seccomp, SECCOMP_SET_MODE_STRICT, 1, NULL) < 0 ? errno : 0);
	printf("%d ", syscall(SYS_seccomp, SECCOMP_SET_MODE_STRICT, 0, "") < 0 ? errno : 0);
	printf("%d ", prctl(PR_SET_SECCOMP, 3, 0, 0, 0) < 0 ? errno : 0);
	printf("%d\n", prctl(PR_SET_SECCOMP, SECCOMP_MODE_FILTER, 0, 0, 0) < 0 ? errno : 0);
	return 0;
}

int main(int argc, char **argv)
{
	const char *what = argc > 1 ? argv[1] : "";
	int number = argc > 2 ? atoi(argv[2]) : 0;
	if (strcmp(what, "pidfds") == 0)
		return pidfds();
	if (strcmp(what, "registers") == 0) {
		registers();
		filter(SYS_uname, SECCOMP_RET_ALLOW); /* of the program's own */
		return registers();
	}
	if (strcmp(what, "zombies") == 0) {
		ours = argv + 3;
		return zombies(number);
	}
	if (strcmp(what, "traces") == 0)
		return traces();
	if (strcmp(what, "strict") == 0)
		return strict();
	return 2;
}
