/* abuse WHAT MARK: programs that make processes in unusual ways, as fast as they can, for abuse.py. Each runs until it is
   killed. MARK is in the arguments of every process, so that one that is left behind is found. */
#include "abuse.h"
#include <linux/filter.h>
#include <linux/seccomp.h>
#include <pthread.h>
#include <sys/mman.h>
#include <sys/prctl.h>
#include <sys/ptrace.h>
#include <sys/resource.h>
#include <sys/time.h>

enum { STACKS = 256, STACK = 16384 };

static const char *mark = "";

static void again(const char *what)
{
	execl("/proc/self/exe", "abuse", what, mark, (char *)NULL);
	_exit(127);
}

/* ---------------------------------------------------------------- forks */

static void on_alarm(int unused)
{
	(void)unused;
}

static void interrupt(long microseconds)
{
	struct sigaction act = { .sa_handler = on_alarm };
	struct itimerval often = { { 0, microseconds }, { 0, microseconds } };
	sigaction(SIGALRM, &act, NULL);
	setitimer(ITIMER_REAL, &often, NULL);
}

/* vfork, and children that end in every way, while a signal comes each 200 microseconds. */
static void vforks(void)
{
	pid_t pid = vfork();
	if (pid == 0) {
		if (dice(3) == 0)
			kill(getpid(), SIGKILL);
		if (dice(3) == 0)
			execl("/bin/true", "true", mark, (char *)NULL);
		_exit(0);
	}
	while (pid > 0 && waitpid(pid, NULL, 0) < 0 && errno == EINTR)
		;
}

static int sleeps_and_ends(void *unused)
{
	struct timespec t = { 0, 1000000 };
	(void)unused;
	syscall(SYS_nanosleep, &t, NULL);
	syscall(SYS_exit, 0);
	return 0;
}

/* Flags of clone in any mixture; what the kernel refuses changes nothing. */
static void flags(void)
{
	static const unsigned all[] = { CLONE_VM, CLONE_FS, CLONE_FILES, CLONE_SIGHAND, CLONE_PTRACE, CLONE_VFORK,
		CLONE_PARENT, CLONE_THREAD, CLONE_NEWNS, CLONE_SYSVSEM, CLONE_PARENT_SETTID, CLONE_CHILD_CLEARTID,
		CLONE_UNTRACED, CLONE_CHILD_SETTID, CLONE_NEWCGROUP, CLONE_NEWUTS, CLONE_NEWIPC, CLONE_NEWUSER, CLONE_NEWPID,
		CLONE_IO, CLONE_PIDFD };
	static char *stacks;
	static unsigned next;
	static int numbers[2];
	if (!stacks)
		stacks = mmap(NULL, STACKS * STACK, PROT_READ | PROT_WRITE, MAP_PRIVATE | MAP_ANONYMOUS, -1, 0);
	unsigned how = dice(2) ? SIGCHLD : 0;
	if (dice(3) == 0)
		how = CLONE_VM | CLONE_SIGHAND | CLONE_THREAD;
	for (unsigned i = dice(5); i > 0; i--)
		how |= all[dice(sizeof all / sizeof *all)];
	char *stack = stacks + (next++ % STACKS + 1) * STACK;
	clone(sleeps_and_ends, stack, (int)how, NULL, &numbers[0], NULL, &numbers[1]);
	while (dice(8) == 0 && waitpid(-1, NULL, WNOHANG | __WALL) > 0)
		;
	if (next % STACKS == 0)
		usleep(3000);
}

/* Daemons: two forks and a session of their own. Half of the time under a subreaper that waits for nobody. */
static void daemons(void)
{
	pid_t pid = fork();
	if (pid == 0) {
		prctl(PR_SET_CHILD_SUBREAPER, dice(2));
		setsid();
		if (fork() == 0) {
			setsid();
			usleep(dice(3000));
			_exit(0);
		}
		_exit(0);
	}
	waitpid(pid, NULL, 0);
}

/* Namespaces of numbers whose first process ends while the others fork. */
static void namespaces(void)
{
	pid_t pid = fork();
	if (pid == 0) {
		if (unshare(CLONE_NEWUSER | CLONE_NEWPID))
			_exit(1);
		pid_t first = fork();
		if (first == 0) {
			for (int i = 0; i < 8; i++)
				if (fork() == 0)
					for (;;)
						if (fork() == 0)
							_exit(0);
			usleep(dice(4000));
			_exit(0);
		}
		waitpid(first, NULL, 0);
		if (fork() == 0) /* ENOMEM: the namespace is over */
			_exit(0);
		_exit(0);
	}
	waitpid(pid, NULL, 0);
}

/* ---------------------------------------------------------------- execs */

static void *exec_soon(void *unused)
{
	(void)unused;
	usleep(dice(1500));
	again("exec-race");
	return NULL;
}

/* The first thread forks by each way while another becomes a program anew. */
static int exec_race(void)
{
	pthread_t thread;
	struct clone_args args = { .exit_signal = SIGCHLD };
	if (dice(20) == 0)
		return 0;
	if (pthread_create(&thread, NULL, exec_soon, NULL))
		return 1;
	for (unsigned way = 0;; way++) {
		long pid = way % 3 == 0 ? fork() : way % 3 == 1 ? syscall(SYS_clone3, &args, sizeof args) : syscall(SYS_fork);
		if (pid == 0)
			_exit(0);
		waitpid(-1, NULL, WNOHANG);
	}
}

static void exec_once(void)
{
	int status = 0;
	pid_t pid = fork();
	if (pid == 0)
		again("exec-race");
	if (waitpid(pid, &status, 0) == pid && WIFSIGNALED(status)) {
		printf("an exec ended by signal %d\n", WTERMSIG(status));
		fflush(stdout);
	}
}

/* Many in parallel, so that the supervisor has many stops to answer. */
static void execs(void)
{
	for (int i = 0; i < 20; i++)
		begin(exec_once);
	for (;;)
		exec_once();
}

/* A program of no file. */
static void memories(void)
{
	static int program = -1;
	static char *const words[] = { (char *)"true", NULL }, *const none[] = { NULL };
	if (program < 0) {
		char bytes[65536];
		int from = open("/bin/true", O_RDONLY);
		program = memfd_create("true", MFD_CLOEXEC);
		for (ssize_t n; (n = read(from, bytes, sizeof bytes)) > 0;)
			if (write(program, bytes, (size_t)n) != n)
				_exit(1);
		close(from);
	}
	pid_t pid = vfork();
	if (pid == 0) {
		syscall(SYS_execveat, program, "", words, none, AT_EMPTY_PATH);
		_exit(1);
	}
	waitpid(pid, NULL, 0);
}

/* ---------------------------------------------------------------- the program's own filters and tracers */

static void filter(unsigned answer)
{
	struct sock_filter code[] = {
		BPF_STMT(BPF_LD | BPF_W | BPF_ABS, offsetof(struct seccomp_data, nr)),
		BPF_JUMP(BPF_JMP | BPF_JEQ | BPF_K, SYS_clone, 5, 0),
		BPF_JUMP(BPF_JMP | BPF_JEQ | BPF_K, SYS_clone3, 4, 0),
		BPF_JUMP(BPF_JMP | BPF_JEQ | BPF_K, SYS_fork, 3, 0),
		BPF_JUMP(BPF_JMP | BPF_JEQ | BPF_K, SYS_unshare, 2, 0),
		BPF_JUMP(BPF_JMP | BPF_JEQ | BPF_K, SYS_getppid, 1, 0),
		BPF_STMT(BPF_RET | BPF_K, SECCOMP_RET_ALLOW),
		BPF_STMT(BPF_RET | BPF_K, answer),
	};
	struct sock_fprog program = { sizeof code / sizeof *code, code };
	prctl(PR_SET_NO_NEW_PRIVS, 1, 0, 0, 0);
	syscall(SYS_seccomp, SECCOMP_SET_MODE_FILTER, 0, &program);
}

/* The calls that the supervisor stops are answered by a filter of the program. */
static void filters(void)
{
	static const unsigned answers[] = { SECCOMP_RET_TRACE, SECCOMP_RET_TRACE | 7, SECCOMP_RET_USER_NOTIF,
		SECCOMP_RET_KILL_THREAD, SECCOMP_RET_KILL_PROCESS, SECCOMP_RET_ERRNO | EAGAIN, SECCOMP_RET_LOG,
		SECCOMP_RET_TRAP };
	pid_t pid = fork();
	if (pid == 0) {
		filter(answers[dice(sizeof answers / sizeof *answers)]);
		for (int i = 0; i < 20; i++) {
			syscall(SYS_getppid);
			syscall(SYS_unshare, 0);
			if (syscall(SYS_clone, SIGCHLD, 0, 0, 0, 0) == 0)
				_exit(0);
		}
		_exit(0);
	}
	reap();
}

/* Asks to be traced, and traces others: its own children, and its parent. */
static void tracers(void)
{
	pid_t pid = fork();
	if (pid == 0) {
		ptrace(PTRACE_TRACEME, 0, 0, 0);
		prctl(PR_SET_DUMPABLE, 0, 0, 0, 0);
		if (fork() == 0)
			_exit(0);
		_exit(0);
	}
	ptrace(PTRACE_ATTACH, pid, 0, 0);
	ptrace(PTRACE_SEIZE, getppid(), 0, PTRACE_O_EXITKILL);
	ptrace(PTRACE_DETACH, pid, 0, 0);
	waitpid(pid, NULL, __WALL);
}

/* ---------------------------------------------------------------- limits */

/* No descriptor, no file, no process more: and then it forks. */
static void limits(void)
{
	static const int which[] = { RLIMIT_NPROC, RLIMIT_NOFILE, RLIMIT_FSIZE, RLIMIT_CORE, RLIMIT_STACK,
		RLIMIT_SIGPENDING };
	pid_t pid = fork();
	if (pid == 0) {
		struct rlimit none = { dice(4), 16 };
		setrlimit(which[dice(sizeof which / sizeof *which)], &none);
		syscall(SYS_close_range, dice(3), ~0U, 0);
		for (int i = 0; i < 5; i++)
			fork_once();
		_exit(0);
	}
	waitpid(pid, NULL, 0);
}

int main(int argc, char **argv)
{
	static const struct way ways[] = { { "vforks", vforks }, { "flags", flags }, { "daemons", daemons },
		{ "namespaces", namespaces }, { "execs", execs }, { "memories", memories }, { "filters", filters },
		{ "tracers", tracers }, { "limits", limits } };
	const char *what = argc > 1 ? argv[1] : "";
	mark = argc > 2 ? argv[2] : "";
	if (strcmp(what, "exec-race") == 0)
		return exec_race();
	if (strcmp(what, "vforks") == 0)
		interrupt(200);
	return go_on(what, ways, sizeof ways / sizeof *ways);
}
