/* alike WHAT: calls about processes and signals, one line for what came of each. alike.py compares what this says alone and under
   `makhloeum run`. `alike under PROGRAM ..` executes a program with a filter. */
#include "../filters.h"
#include <fcntl.h>
#include <linux/sched.h>
#include <poll.h>
#include <pthread.h>
#include <signal.h>
#include <stdbool.h>
#include <stdlib.h>
#include <string.h>
#include <sys/mman.h>
#include <sys/resource.h>
#include <sys/socket.h>
#include <sys/stat.h>
#include <sys/time.h>
#include <time.h>

#ifndef P_PIDFD
#define P_PIDFD 3
#endif

static const char *fault(void)
{
	return strerrorname_np(errno);
}

/* What a call has returned, or its errno. */
static void put(const char *name, long result)
{
	if (result < 0)
		printf("%s: %s\n", name, fault());
	else
		printf("%s: %ld\n", name, result);
}

/* A child that ends with 5 once a byte comes, or the end of this process. */
static int to_child;

static pid_t waiting_child(void)
{
	int ends[2], ready[2];
	char byte = 0;
	if (socketpair(AF_UNIX, SOCK_STREAM, 0, ends) || pipe(ready))
		exit(3);
	pid_t pid = fork();
	if (pid == 0) {
		setpgid(0, 0); /* so that its group has somebody above, and can be stopped */
		close(ends[1]);
		if (write(ready[1], &byte, 1) != 1)
			_exit(4);
		while (read(ends[0], &byte, 1) < 0 && errno == EINTR)
			;
		_exit(5);
	}
	close(ends[0]);
	close(ready[1]);
	if (read(ready[0], &byte, 1) != 1)
		exit(3);
	close(ready[0]);
	to_child = ends[1];
	return pid;
}

static void let_end(void)
{
	(void)send(to_child, "", 1, MSG_NOSIGNAL); /* it may have ended */
	close(to_child);
}

static void put_wait(const char *name, pid_t pid, int options)
{
	siginfo_t info = { .si_pid = 0 };
	int result = waitid(P_PID, (id_t)pid, &info, options);
	printf("%s: %d", name, result);
	if (result < 0)
		printf(" %s\n", fault());
	else
		printf(" %s %d %d\n",
			info.si_pid == pid ? "it"
				: info.si_pid  ? "another"
							   : "nobody",
			info.si_code, info.si_status);
}

/* ---------------------------------------------------------------- signals */

/* Other processes are made and end. Meanwhile one that is not stopped would have run. */
static void others_run(void)
{
	for (int i = 0; i < 100; i++) {
		pid_t pid = fork();
		if (pid == 0)
			_exit(0);
		waitpid(pid, NULL, 0);
	}
}

/* What the default action of each signal does. */
static void actions(void)
{
	for (int which = 1; which <= SIGRTMAX; which++) {
		if (which == SIGKILL || (which > SIGSYS && which < SIGRTMIN))
			continue;
		signal(which, SIG_DFL);
		pid_t pid = waiting_child();
		kill(pid, which);
		bool stops = which == SIGSTOP || which == SIGTSTP || which == SIGTTIN || which == SIGTTOU;
		if (stops) {
			put_wait("stopped", pid, WSTOPPED | WEXITED | WCONTINUED);
			let_end();
			others_run();
			put_wait("still stopped", pid, WEXITED | WNOHANG);
			kill(pid, SIGCONT);
		} else
			let_end();
		printf("signal %d, ", which);
		put_wait("ended", pid, WEXITED);
	}
}

/* What SIGCHLD says of each change of a child. */
static void news(void)
{
	sigset_t some;
	siginfo_t info;
	sigemptyset(&some);
	sigaddset(&some, SIGCHLD);
	sigprocmask(SIG_BLOCK, &some, NULL);
	static const int sent[] = { SIGSTOP, SIGCONT, SIGTSTP, SIGCONT, SIGTTIN, SIGCONT, SIGTTOU, SIGCONT, 0 };
	pid_t pid = waiting_child();
	for (size_t i = 0; i < sizeof sent / sizeof *sent; i++) {
		if (sent[i])
			kill(pid, sent[i]);
		else
			let_end();
		int got = sigwaitinfo(&some, &info);
		printf("after %d: %d, %d %d of %s by %s\n", sent[i], got, info.si_code, info.si_status,
			info.si_pid == pid ? "it" : "another", info.si_uid == getuid() ? "us" : "others");
	}
	put_wait("then", pid, WEXITED);
	pid = waiting_child();
	kill(pid, SIGKILL);
	int got = sigwaitinfo(&some, &info);
	printf("killed: %d, %d %d\n", got, info.si_code, info.si_status);
	close(to_child);
	put_wait("then", pid, WEXITED);
	signal(SIGCHLD, SIG_IGN);
	pid = waiting_child();
	let_end();
	put_wait("with SIGCHLD ignored", pid, WEXITED);
	signal(SIGCHLD, SIG_DFL);
}

static volatile sig_atomic_t caught;
static siginfo_t seen;

static void catch_it(int which, siginfo_t *info, void *unused)
{
	(void)unused;
	caught = which;
	seen = *info;
	if (info->si_code > 0 &&
		(which == SIGSEGV || which == SIGBUS || which == SIGFPE || which == SIGILL)) /* of the kernel */
		_exit(printf("fault %d: code %d, %s\n", which, info->si_code, info->si_addr ? "an address" : "none") < 0 ||
			fflush(stdout));
}

static void handle(int which)
{
	struct sigaction act = { .sa_sigaction = catch_it, .sa_flags = SA_SIGINFO };
	sigaction(which, &act, NULL);
}

static void put_seen(const char *name)
{
	printf("%s: %d, code %d, from %s, value %d\n", name, (int)caught, seen.si_code,
		seen.si_pid == getpid() ? "itself"
			: seen.si_pid       ? "another"
								: "nobody",
		seen.si_value.sival_int);
	caught = 0;
	memset(&seen, 0, sizeof seen);
}

static void in_child(void (*call)(void))
{
	int status = 0;
	fflush(stdout);
	pid_t pid = fork();
	if (pid == 0) {
		call();
		fflush(stdout);
		_exit(0);
	}
	waitpid(pid, &status, 0);
	printf("status %#x\n", status);
}

static void reads_nothing(void)
{
	int *volatile nowhere = (int *)(size_t)getpagesize() - 8;
	handle(SIGSEGV);
	printf("%d\n", *(volatile int *)nowhere);
}

static void beyond_a_file(void)
{
	handle(SIGBUS);
	int fd = memfd_create("empty", 0);
	printf("%d\n", *(volatile int *)mmap(NULL, 4096, PROT_READ, MAP_SHARED, fd, 0));
}

#if defined(__x86_64__)
static void divides(void)
{
	int low = 1, high = 0;
	handle(SIGFPE);
	__asm__ volatile("divl %2" : "+a"(low), "+d"(high) : "r"(high));
	printf("%d\n", low);
}

static void is_no_instruction(void)
{
	handle(SIGILL);
	__asm__ volatile("ud2");
}
#endif

static void is_filtered(void)
{
	static const long some[] = { SYS_getppid, SYS_clone, SYS_clone3, SYS_openat, SYS_wait4, SYS_prctl };
	handle(SIGSYS);
	for (size_t i = 0; i < sizeof some / sizeof *some; i++) {
		filter(some[i], SECCOMP_RET_TRAP | 7);
		if (some[i] == SYS_prctl)
			break; /* the last, since filters are made by it */
		syscall(some[i], 0, 0, 0, 0, 0, 0);
		printf("a trap: %d, code %d, call %s, errno %d\n", (int)caught, seen.si_code,
			seen.si_syscall == some[i] ? "it" : "another", seen.si_errno);
	}
	filter(SYS_uname, SECCOMP_RET_ERRNO | 77);
	long result = syscall(SYS_uname, NULL);
	printf("an errno: %ld %d\n", result, errno);
	fflush(stdout);
	filter(SYS_uname, SECCOMP_RET_KILL_PROCESS);
	syscall(SYS_uname, NULL);
}

/* What a handler gets. */
static void infos(void)
{
	union sigval value = { .sival_int = 77 };
	struct sigevent event = { .sigev_notify = SIGEV_SIGNAL, .sigev_signo = SIGUSR2, .sigev_value.sival_int = 88 };
	struct itimerspec soon = { { 0, 0 }, { 0, 1000000 } };
	struct itimerval later = { { 0, 0 }, { 0, 1000 } };
	timer_t timer;
	for (int which = 1; which <= SIGRTMAX; which++) {
		if (which == SIGKILL || which == SIGSTOP || (which > SIGSYS && which < SIGRTMIN))
			continue;
		handle(which);
		kill(getpid(), which);
		put_seen("kill");
		sigqueue(getpid(), which, value);
		put_seen("sigqueue");
		signal(which, SIG_DFL);
	}
	handle(SIGUSR1);
	handle(SIGUSR2);
	handle(SIGALRM);
	syscall(SYS_tgkill, getpid(), getpid(), SIGUSR1);
	put_seen("tgkill");
	timer_create(CLOCK_MONOTONIC, &event, &timer);
	timer_settime(timer, 0, &soon, NULL);
	while (!caught)
		;
	seen.si_pid = 0; /* the timer's number there */
	put_seen("a timer");
	setitimer(ITIMER_REAL, &later, NULL);
	while (!caught)
		;
	put_seen("an alarm");
	raise(SIGUSR1);
	put_seen("raise");
#if defined(__x86_64__)
	handle(SIGTRAP);
	__asm__ volatile("int3");
	put_seen("a breakpoint");
#endif
	in_child(reads_nothing);
	in_child(beyond_a_file);
#if defined(__x86_64__)
	in_child(divides);
	in_child(is_no_instruction);
#endif
	in_child(is_filtered);
	in_child(abort);
}

/* ---------------------------------------------------------------- waiting */

static void put_wait4(const char *name, pid_t which, int options, pid_t pid)
{
	int status = -1;
	struct rusage used = { .ru_maxrss = -1 };
	pid_t got = wait4(which, &status, options, &used);
	printf("%s %#x: %s", name, (unsigned)options, got == pid ? "it" : got > 0 ? "another" : got ? fault() : "nobody");
	printf(" %#x %s\n", got > 0 ? (unsigned)status : 0, got > 0 && used.ru_maxrss < 0 ? "no use" : "");
}

static void waits(void)
{
	static const int options[] = { 0, WNOHANG, __WALL, WNOHANG | __WALL, __WCLONE | WNOHANG, WUNTRACED | WNOHANG,
		WCONTINUED | WNOHANG, WNOHANG | __WNOTHREAD, 1 << 20 };
	for (size_t i = 0; i < sizeof options / sizeof *options; i++)
		for (int which = 0; which < 4; which++) {
			pid_t pid = waiting_child();
			if (options[i] & WNOHANG)
				put_wait4("before", pid, options[i], pid);
			let_end();
			put_wait("look", pid, WEXITED | WNOWAIT);
			put_wait4("after", which == 0 ? pid : which == 1 ? -1 : which == 2 ? -pid : 0, options[i], pid);
			put_wait4("again", pid, WNOHANG, pid);
			waitpid(pid, NULL, __WALL);
		}
	static const int more[] = { WEXITED, WEXITED | WNOHANG, WEXITED | WNOWAIT, WEXITED | WNOHANG | WNOWAIT,
		WSTOPPED | WNOHANG, WNOHANG, 0, WCONTINUED | WNOHANG, WEXITED | 1 << 20 };
	for (size_t i = 0; i < sizeof more / sizeof *more; i++) {
		pid_t pid = waiting_child();
		if (more[i] & WNOHANG)
			put_wait("waitid before", pid, more[i]);
		let_end();
		put_wait("look", pid, WEXITED | WNOWAIT);
		put_wait("waitid", pid, more[i]);
		put_wait("again", pid, WEXITED | WNOHANG);
		put_wait("and again", pid, WEXITED | WNOHANG);
	}
	pid_t pid = waiting_child();
	siginfo_t info = { .si_pid = 0 };
	int fd = (int)syscall(SYS_pidfd_open, pid, 0);
	struct pollfd end = { .fd = fd, .events = POLLIN };
	put("a pidfd", poll(&end, 1, 0));
	let_end();
	put("then", poll(&end, 1, -1));
	put("events", end.revents);
	put("P_PIDFD", waitid(P_PIDFD, (id_t)fd, &info, WEXITED));
	put("its status", info.si_status);
	put("gone", syscall(SYS_pidfd_send_signal, fd, 0, NULL, 0));
	put("no such way", waitid((idtype_t)9, 1, &info, WEXITED | WNOHANG));
	put("a bad address", syscall(SYS_wait4, -1, 8, WNOHANG, 0));
	pid = waiting_child();
	let_end();
	put_wait("look", pid, WEXITED | WNOWAIT);
	put("a status to a bad address", syscall(SYS_wait4, -1, 8, WNOHANG, 0));
	put("it is gone", waitpid(pid, NULL, WNOHANG));
	put("of nobody", waitpid(getpid(), NULL, WNOHANG));
}

/* ---------------------------------------------------------------- children */

static struct clone_args args_of(unsigned long flags, unsigned long signal)
{
	return (struct clone_args){ .flags = flags, .exit_signal = signal };
}

static void put_child(const char *name, unsigned long what, long pid)
{
	int status = -1;
	if (pid == 0)
		_exit(9);
	if (pid < 0) {
		printf("%s %#lx: %s\n", name, what, fault());
		return;
	}
	pid_t got = waitpid((pid_t)pid, &status, __WALL);
	printf("%s %#lx: %s %#x\n", name, what, got == pid ? "a child" : "nobody", (unsigned)status);
}

static void clones(void)
{
	static int numbers[4];
	static const unsigned long flags[] = { 0, CLONE_FS, CLONE_FILES, CLONE_VFORK, CLONE_SIGHAND, CLONE_THREAD,
		CLONE_THREAD | CLONE_SIGHAND, CLONE_NEWNS | CLONE_FS, CLONE_NEWUSER | CLONE_FS, CLONE_NEWIPC | CLONE_SYSVSEM,
		CLONE_SYSVSEM, CLONE_IO, CLONE_PARENT_SETTID, CLONE_CHILD_SETTID, CLONE_CHILD_CLEARTID, CLONE_PIDFD,
		CLONE_PARENT_SETTID | CLONE_CHILD_SETTID, CLONE_PIDFD | CLONE_THREAD, CLONE_DETACHED, CLONE_UNTRACED,
		CLONE_PTRACE, CLONE_PIDFD | CLONE_DETACHED };
	static const unsigned long signals[] = { 0, 1, SIGCHLD, SIGUSR2, 64, 65, 255 };
	static const size_t sizes[] = { 0, 8, 63, 64, 65, 72, 79, 80, 81, 87, 88 };
	static char room[8192] __attribute__((aligned(4096)));
	signal(SIGHUP, SIG_IGN);
	signal(SIGUSR2, SIG_IGN);
	signal(64, SIG_IGN);
	fflush(stdout);
	for (size_t i = 0; i < sizeof flags / sizeof *flags; i++) {
		numbers[0] = numbers[1] = numbers[2] = -1;
		long pid = syscall(SYS_clone, flags[i] | SIGCHLD, 0, &numbers[0], &numbers[1], 0, 0);
		if (pid == 0)
			_exit(numbers[1] == getpid() ? 11 : numbers[0] == getpid() ? 12 : 10);
		bool is_set = pid > 0 && numbers[0] == pid;
		put_child("clone", flags[i], pid);
		printf("%s %s\n",
			is_set                 ? "its number here"
				: numbers[0] == -1 ? "nothing"
								   : "something",
			numbers[1] == -1 ? "nothing" : "something");
		fflush(stdout);
		if (flags[i] & CLONE_PIDFD && pid > 0)
			close(numbers[0]);
		struct clone_args a = args_of(flags[i], flags[i] & CLONE_THREAD ? 0 : SIGCHLD);
		numbers[0] = numbers[1] = numbers[2] = -1;
		a.parent_tid = (__u64)(size_t)&numbers[0];
		a.child_tid = (__u64)(size_t)&numbers[1];
		a.pidfd = (__u64)(size_t)&numbers[2];
		pid = syscall(SYS_clone3, &a, sizeof a);
		if (pid == 0)
			_exit(numbers[1] == getpid() ? 11 : numbers[0] == getpid() ? 12 : 10);
		is_set = pid > 0 && numbers[0] == pid;
		put_child("clone3", flags[i], pid);
		printf("%s %s %s\n",
			is_set                 ? "its number here"
				: numbers[0] == -1 ? "nothing"
								   : "something",
			numbers[1] == -1 ? "nothing" : "something", numbers[2] == -1 ? "nothing" : "a descriptor");
		fflush(stdout);
		if (numbers[2] != -1)
			close(numbers[2]);
	}
	for (size_t i = 0; i < sizeof signals / sizeof *signals; i++) {
		struct clone_args a = args_of(0, signals[i]);
		put_child("clone3, signal", signals[i], syscall(SYS_clone3, &a, sizeof a));
		put_child("clone, signal", signals[i], syscall(SYS_clone, signals[i], 0, 0, 0, 0, 0));
		fflush(stdout);
	}
	for (size_t i = 0; i < sizeof sizes / sizeof *sizes; i++) {
		struct clone_args a = args_of(0, SIGCHLD);
		put_child("clone3, size", sizes[i], syscall(SYS_clone3, &a, sizes[i]));
		/* at the end of what can be read */
		char *at = room + 4096 - sizes[i];
		mprotect(room + 4096, 4096, PROT_READ | PROT_WRITE);
		memcpy(at, &a, sizes[i]);
		mprotect(room + 4096, 4096, PROT_NONE);
		put_child("at the end of a page", sizes[i], syscall(SYS_clone3, at, sizes[i]));
		put_child("beyond it", sizes[i], syscall(SYS_clone3, at + 1, sizes[i]));
		fflush(stdout);
	}
	for (size_t i = 0; i < sizeof sizes / sizeof *sizes; i++) {
		struct clone_args a = args_of(CLONE_INTO_CGROUP, SIGCHLD); /* descriptor 0 is of no group */
		put_child("clone3 into a group, size", sizes[i], syscall(SYS_clone3, &a, sizes[i]));
	}
	put_child("clone3, more than a page", 0, syscall(SYS_clone3, room, 4097));
	put_child("clone3 of nothing", 0, syscall(SYS_clone3, NULL, sizeof(struct clone_args)));
#ifdef SYS_fork
	put_child("fork", 0, syscall(SYS_fork));
#endif
	fflush(stdout);
	put_child("vfork", 0, vfork());
	/* a child without a signal is only seen by who asks for it */
	struct clone_args silent = args_of(0, 0);
	long pid = syscall(SYS_clone3, &silent, sizeof silent);
	if (pid == 0)
		_exit(3);
	int status = 0;
	put("silent", waitpid((pid_t)pid, NULL, 0));
	put("by __WCLONE", waitpid((pid_t)pid, &status, __WCLONE) == pid ? status : -1);
	struct rlimit none = { 0, 0 };
	fflush(stdout);
	if ((pid = fork()) == 0) {
		setrlimit(RLIMIT_NPROC, &none);
		put_child("beyond RLIMIT_NPROC", 0,
			geteuid() ? syscall(SYS_clone, SIGCHLD, 0, 0, 0, 0, 0) : (errno = EAGAIN, -1));
		fflush(stdout);
		_exit(0);
	}
	waitpid((pid_t)pid, NULL, 0);
}

/* ---------------------------------------------------------------- strict mode beside filters */

static int told = -1; /* who asks for strict mode writes here what came of it */

static void ask_for_strict(void)
{
	int result = prctl(PR_SET_SECCOMP, SECCOMP_MODE_STRICT, 0, 0, 0) ? errno : 0;
	if (write(told, &result, sizeof result) < 0)
		_exit(4);
	syscall(SYS_exit, 0);
}

static void execute(void)
{
	char where[16];
	snprintf(where, sizeof where, "%d", told);
	execl("/proc/self/exe", "alike", "strict", where, (char *)NULL);
	_exit(4);
}

/* Installs a filter that allows all. */
enum { BY_PRCTL = -1 };

static long install(long flags)
{
	static struct sock_filter code[] = { BPF_STMT(BPF_RET | BPF_K, SECCOMP_RET_ALLOW) };
	static const struct sock_fprog program = { 1, code };
	prctl(PR_SET_NO_NEW_PRIVS, 1, 0, 0, 0);
	return flags == BY_PRCTL ? prctl(PR_SET_SECCOMP, SECCOMP_MODE_FILTER, &program, 0, 0)
							 : syscall(SYS_seccomp, SECCOMP_SET_MODE_FILTER, flags, &program);
}

static void *call_it(void *call)
{
	((void (*)(void))call)();
	return NULL;
}

/* A thread that does this. */
static pthread_t begin(void (*call)(void))
{
	pthread_t thread;
	if (pthread_create(&thread, NULL, call_it, (void *)call))
		_exit(4);
	return thread;
}

static void install_here(void)
{
	install(0);
}
static void install_by_prctl(void)
{
	install(BY_PRCTL);
}
static void install_for_all(void)
{
	install(SECCOMP_FILTER_FLAG_TSYNC);
}
static void install_with_a_log(void)
{
	install(SECCOMP_FILTER_FLAG_LOG);
}
static void install_twice(void)
{
	install(0);
	install(0);
}
static void install_after_a_refusal(void)
{
	install(0);
	prctl(PR_SET_SECCOMP, SECCOMP_MODE_STRICT, 0, 0, 0);
	install(0);
}
static void install_with_unknown_flags(void)
{
	install(1L << 30);
}
static void install_nothing(void)
{
	syscall(SYS_seccomp, SECCOMP_SET_MODE_FILTER, SECCOMP_FILTER_FLAG_TSYNC, NULL);
	prctl(PR_SET_SECCOMP, SECCOMP_MODE_FILTER, NULL, 0, 0);
}
static void install_in_a_thread(void)
{
	pthread_join(begin(install_here), NULL);
}
static void install_for_all_in_a_thread(void)
{
	pthread_join(begin(install_for_all), NULL);
}
static void install_in_a_child(void)
{
	pid_t pid = fork();
	if (pid == 0) {
		install(SECCOMP_FILTER_FLAG_TSYNC);
		_exit(0);
	}
	waitpid(pid, NULL, 0);
}
static void fork_after_it(void)
{
	install(0);
	if (fork())
		pause();
}
static void ask_in_a_thread_after_it(void)
{
	install(0);
	begin(ask_for_strict);
	pause();
}
static void ask_in_a_thread_before_it(void)
{
	begin(ask_for_strict);
	pause();
}
static void execute_after_it(void)
{
	install(0);
	execute();
}
static void execute_in_a_thread_after_it(void)
{
	install(0);
	begin(execute);
	pause();
}
static void install_and_execute(void)
{
	install(0);
	execute();
}
static void execute_in_a_thread_that_has_it(void)
{
	begin(install_and_execute);
	pause();
}

static int gate[2], shut[2];

static void execute_once_told(void)
{
	char byte;
	if (read(gate[0], &byte, 1) == 1)
		execute();
}
static void execute_in_a_thread_without_it(void)
{
	begin(execute_once_told);
	install(0);
	if (write(gate[1], "x", 1) == 1)
		pause();
}
static void execute_while_the_first_is_strict(void)
{
	char byte;
	begin(execute_once_told);
	if (prctl(PR_SET_SECCOMP, SECCOMP_MODE_STRICT, 0, 0, 0) == 0 && write(gate[1], "x", 1) == 1)
		while (read(shut[0], &byte, 1) >= 0)
			;
}

/* What a thread gets that asks for strict mode after each of these. */
static void modes(void)
{
	static const struct {
		const char *name;
		void (*call)(void);
	} all[] = { { "a filter", install_here }, { "by prctl", install_by_prctl }, { "for all threads", install_for_all },
		{ "with a log", install_with_a_log }, { "two filters", install_twice },
		{ "a filter after that was refused", install_after_a_refusal }, { "unknown flags", install_with_unknown_flags },
		{ "no filter", install_nothing }, { "of another thread", install_in_a_thread },
		{ "of another for all", install_for_all_in_a_thread }, { "of a child", install_in_a_child },
		{ "before a fork", fork_after_it }, { "before a thread", ask_in_a_thread_after_it },
		{ "a thread without", ask_in_a_thread_before_it }, { "before an exec", execute_after_it },
		{ "before a thread's exec", execute_in_a_thread_after_it },
		{ "of the thread that execs", execute_in_a_thread_that_has_it },
		{ "of the first thread while another execs", execute_in_a_thread_without_it },
		{ "no filter, but the first thread is strict", execute_while_the_first_is_strict } };
	for (size_t i = 0; i < sizeof all / sizeof *all; i++) {
		int ends[2], result = -1;
		if (pipe(ends) || pipe(gate) || pipe(shut))
			exit(3);
		fflush(stdout);
		pid_t pid = fork();
		if (pid == 0) {
			setpgid(0, 0);
			close(ends[0]);
			told = ends[1];
			all[i].call();
			ask_for_strict();
		}
		setpgid(pid, pid); /* it fails if the child did it */
		close(ends[1]);
		if (read(ends[0], &result, sizeof result) != sizeof result)
			puts("nobody says anything");
		printf("%s: %s\n", all[i].name, result ? strerrorname_np(result) : "strict");
		kill(-pid, SIGKILL);
		waitpid(pid, NULL, 0);
		int opened[] = { ends[0], gate[0], gate[1], shut[0], shut[1] };
		for (size_t k = 0; k < sizeof opened / sizeof *opened; k++)
			close(opened[k]);
	}
}

/* ---------------------------------------------------------------- what a program begins with */

static void inherits(void)
{
	static const int limits[] = { RLIMIT_AS, RLIMIT_CORE, RLIMIT_CPU, RLIMIT_DATA, RLIMIT_FSIZE, RLIMIT_LOCKS,
		RLIMIT_MEMLOCK, RLIMIT_MSGQUEUE, RLIMIT_NICE, RLIMIT_NOFILE, RLIMIT_NPROC, RLIMIT_RSS, RLIMIT_RTPRIO,
		RLIMIT_RTTIME, RLIMIT_SIGPENDING, RLIMIT_STACK };
	char text[4096];
	sigset_t set;
	struct sigaction act;
	for (size_t i = 0; i < sizeof limits / sizeof *limits; i++) {
		struct rlimit r;
		getrlimit((__rlimit_resource_t)limits[i], &r);
		printf("limit %d: %lu %lu\n", limits[i], (unsigned long)r.rlim_cur, (unsigned long)r.rlim_max);
	}
	mode_t mask = umask(0);
	printf("umask %o, nice %d, group %d, session %d, terminal %d\n", mask, getpriority(PRIO_PROCESS, 0), getpgrp(),
		getsid(0), isatty(0));
	printf("directory %s\n", getcwd(text, sizeof text));
	sigprocmask(SIG_BLOCK, NULL, &set);
	for (int which = 1; which <= SIGRTMAX; which++)
		if (sigaction(which, NULL, &act) == 0)
			printf("%d%s%s ", which, sigismember(&set, which) ? "b" : "", act.sa_handler == SIG_IGN ? "i" : "");
	sigpending(&set);
	for (int which = 1; which <= SIGRTMAX; which++)
		if (sigismember(&set, which))
			printf("%d waits", which);
	puts("");
	for (int fd = 0; fd < 1024; fd++) {
		int flags = fcntl(fd, F_GETFD);
		if (flags >= 0)
			printf("descriptor %d: %d %#x\n", fd, flags, (unsigned)fcntl(fd, F_GETFL));
	}
	int signal_of_death = -1, reaps = -1;
	prctl(PR_GET_PDEATHSIG, &signal_of_death);
	prctl(PR_GET_CHILD_SUBREAPER, &reaps);
	printf("dumpable %d, signal of the parent's death %d, reaps %d, slack %d, keeps %d\n",
		prctl(PR_GET_DUMPABLE, 0, 0, 0, 0), signal_of_death, reaps, prctl(PR_GET_TIMERSLACK, 0, 0, 0, 0) > 0,
		prctl(PR_GET_KEEPCAPS, 0, 0, 0, 0));
	struct itimerval timer;
	getitimer(ITIMER_REAL, &timer);
	printf("alarm %ld, users %d %d\n", (long)timer.it_value.tv_sec, (int)getuid(), (int)getegid());
	for (char **word = environ; *word; word++)
		puts(*word);
	put("children", waitpid(-1, NULL, WNOHANG | __WALL));
}

/* ---------------------------------------------------------------- filters that tell clone3 and clone apart */

static struct {
	const char *name;
	long call;
	unsigned answer;
	bool by_prctl;
} judge;

/* Of a child that ends with 5: its wait status, or why there is none. */
static void put_made(const char *name, long call)
{
	static const struct clone_args args = { .exit_signal = SIGCHLD };
	int status = 0;
	long pid = call == SYS_clone3 ? syscall(call, &args, sizeof args) : syscall(call, SIGCHLD, 0, 0, 0, 0, ~0UL);
	if (pid == 0)
		_exit(5);
	if (pid > 0)
		waitpid((pid_t)pid, &status, 0);
	printf("%s, %s: %s %#x\n", judge.name, name, pid < 0 ? fault() : "a child", status);
	fflush(stdout);
}

static long add(const struct sock_filter *code, size_t count, bool by_prctl)
{
	const struct sock_fprog program = { (unsigned short)count, (struct sock_filter *)(size_t)code };
	prctl(PR_SET_NO_NEW_PRIVS, 1, 0, 0, 0);
	return by_prctl
		? prctl(PR_SET_SECCOMP, SECCOMP_MODE_FILTER, &program, 0, 0)
		: syscall(SYS_seccomp, SECCOMP_SET_MODE_FILTER | 1UL << 32, 0, &program); /* the kernel takes an int */
}

static void makes_children(void)
{
	const struct sock_filter code[] = {
		BPF_STMT(BPF_LD | BPF_W | BPF_ABS, offsetof(struct seccomp_data, nr)),
		BPF_JUMP(BPF_JMP | BPF_JEQ | BPF_K, (unsigned)judge.call, 0, 1),
		BPF_STMT(BPF_RET | BPF_K, judge.answer),
		BPF_STMT(BPF_RET | BPF_K, SECCOMP_RET_ALLOW),
	};
	put("a filter", add(code, sizeof code / sizeof *code, judge.by_prctl));
	put_made("clone3", SYS_clone3);
	put_made("clone", SYS_clone);
}

/* The kernel has 0 in the register at the beginning. */
static void uses_the_register(void)
{
	static const struct sock_filter code[] = { BPF_JUMP(BPF_JMP | BPF_JEQ | BPF_K, 0, 1, 0),
		BPF_STMT(BPF_RET | BPF_K, SECCOMP_RET_ERRNO | 77), BPF_STMT(BPF_RET | BPF_K, SECCOMP_RET_ALLOW) };
	put("a filter that uses the register", add(code, 3, false));
	put("a call", syscall(SYS_getppid) > 0);
}

/* The longest that the kernel takes, shorter ones, and one that is too long. */
static void adds_long_filters(void)
{
	static const size_t lengths[] = { 4000, BPF_MAXINSNS - 6, BPF_MAXINSNS - 5, BPF_MAXINSNS, BPF_MAXINSNS + 1, 0 };
	static struct sock_filter code[BPF_MAXINSNS + 1];
	for (size_t i = 0; i <= BPF_MAXINSNS; i++)
		code[i] = (struct sock_filter)BPF_STMT(BPF_RET | BPF_K, SECCOMP_RET_ALLOW);
	for (size_t i = 0; i < sizeof lengths / sizeof *lengths; i++)
		put("a long filter", add(code, lengths[i], i % 2));
	put("nowhere", add(NULL, 4, false));
	put("nowhere at all", syscall(SYS_seccomp, SECCOMP_SET_MODE_FILTER, 0, 4096));
	put_made("beside long filters", SYS_clone3);
}

/* As long as one may be that lets clone3 pass, and clone not. */
static void adds_the_longest(void)
{
	enum { LONGEST = BPF_MAXINSNS - 6 };
	static struct sock_filter code[LONGEST] = {
		BPF_STMT(BPF_LD | BPF_W | BPF_ABS, offsetof(struct seccomp_data, nr)),
		BPF_JUMP(BPF_JMP | BPF_JEQ | BPF_K, SYS_clone, 0, 1),
		BPF_STMT(BPF_RET | BPF_K, SECCOMP_RET_ERRNO | EPERM),
	};
	for (size_t i = 3; i < LONGEST; i++)
		code[i] = (struct sock_filter)BPF_STMT(BPF_RET | BPF_K, SECCOMP_RET_ALLOW);
	put("the longest filter", add(code, LONGEST, false));
	put_made("beside the longest filter", SYS_clone3);
	put_made("beside the longest filter, clone", SYS_clone);
}

#if defined(__x86_64__)
/* The 128 bytes below the stack pointer are those of the function that adds the filter. */
static void keeps_what_is_below(void)
{
	static struct sock_filter code[] = { BPF_STMT(BPF_RET | BPF_K, SECCOMP_RET_ALLOW) };
	const struct sock_fprog program = { 1, code };
	long result = SYS_seccomp, first, middle, last;
	prctl(PR_SET_NO_NEW_PRIVS, 1, 0, 0, 0);
	__asm__ volatile("movq $71, -128(%%rsp)\n\tmovq $72, -72(%%rsp)\n\tmovq $73, -16(%%rsp)\n\tsyscall\n\t"
					 "movq -128(%%rsp), %1\n\tmovq -72(%%rsp), %2\n\tmovq -16(%%rsp), %3"
					 : "+a"(result), "=&r"(first), "=&r"(middle), "=&r"(last)
					 : "D"((long)SECCOMP_SET_MODE_FILTER), "S"(0L), "d"(&program)
					 : "rcx", "r11", "memory");
	printf("below the stack pointer of a call that returns %ld: %ld %ld %ld\n", result, first, middle, last);
}

/* A stack of a language may have anything below it, also farther below. */
static void keeps_what_is_below_its_own_stack(void)
{
	enum { HALF = 4096, MARK = 7 };
	static char own[2 * HALF] __attribute__((aligned(16)));
	static struct sock_filter code[] = { BPF_STMT(BPF_RET | BPF_K, SECCOMP_RET_ALLOW) };
	static struct sock_fprog program = { 1, code };
	long result = SYS_seccomp;
	size_t changed = 0;
	prctl(PR_SET_NO_NEW_PRIVS, 1, 0, 0, 0);
	memset(own, MARK, sizeof own);
	__asm__ volatile("movq %%rsp, %%rbx\n\tmovq %4, %%rsp\n\tsyscall\n\tmovq %%rbx, %%rsp"
					 : "+a"(result)
					 : "D"((long)SECCOMP_SET_MODE_FILTER), "S"(0L), "d"(&program), "r"(own + HALF)
					 : "rbx", "rcx", "r11", "memory");
	for (size_t i = 0; i < sizeof own; i++)
		changed += own[i] != MARK;
	printf("below its own stack, in a call that returns %ld: %zu bytes changed\n", result, changed);
}
#endif

static void judged(void)
{
	static const struct {
		const char *name;
		unsigned answer;
	} answers[] = { { "EPERM", SECCOMP_RET_ERRNO | EPERM }, { "the end", SECCOMP_RET_KILL_PROCESS } };
	for (int i = 0; i < 8; i++) {
		judge.name = answers[i & 1].name;
		judge.answer = answers[i & 1].answer;
		judge.call = i & 2 ? SYS_clone : SYS_clone3;
		judge.by_prctl = i & 4;
		printf("%s for %s\n", judge.name, judge.call == SYS_clone ? "clone" : "clone3");
		in_child(makes_children);
	}
	in_child(uses_the_register);
	in_child(adds_long_filters);
	in_child(adds_the_longest);
#if defined(__x86_64__)
	in_child(keeps_what_is_below);
	in_child(keeps_what_is_below_its_own_stack);
#endif
}

int main(int argc, char **argv)
{
	static const struct {
		const char *name;
		void (*call)(void);
	} all[] = { { "actions", actions }, { "news", news }, { "infos", infos }, { "waits", waits }, { "clones", clones },
		{ "modes", modes }, { "judged", judged }, { "inherits", inherits } };
	const char *what = argc > 1 ? argv[1] : "";
	struct rlimit none = { 0, 0 };
	if (strcmp(what, "strict") == 0 && argc > 2) {
		told = atoi(argv[2]);
		ask_for_strict();
	}
	if (strcmp(what, "under") == 0 && argc > 2)
		return install(0) || execv(argv[2], argv + 2) ? 3 : 0;
	if (strcmp(what, "inherits") != 0)
		setrlimit(RLIMIT_CORE, &none);
	for (size_t i = 0; i < sizeof all / sizeof *all; i++)
		if (strcmp(what, all[i].name) == 0) {
			all[i].call();
			return fflush(stdout) ? 1 : 0;
		}
	return 2;
}
