/* meddle WHAT MARK: programs that stop, freeze, move and kill processes while these fork, for abuse.py. Each runs until it
   is killed. They work in and below the group /abuse. */
#include "abuse.h"

enum { MANY = 20 };

/* ---------------------------------------------------------------- signals */

static pid_t victims[MANY];

/* Processes that fork are stopped and continued, and some are killed. */
static void stops(void)
{
	pid_t *v = &victims[dice(MANY)];
	if (*v == 0)
		*v = begin(fork_once);
	kill(*v, SIGSTOP);
	kill(*v, dice(30) ? SIGCONT : SIGKILL);
	if (waitpid(*v, NULL, WNOHANG) == *v)
		*v = 0;
}

static int put(const char *file, const char *text)
{
	char path[128];
	snprintf(path, sizeof path, "/sys/fs/cgroup%s", file);
	int fd = open(path, O_WRONLY);
	ssize_t n = fd < 0 ? -1 : write(fd, text, strlen(text));
	if (fd >= 0)
		close(fd);
	return n < 0 ? -errno : 0;
}

static void fork_into(void)
{
	static int group = -1;
	if (group < 0)
		group = open("/sys/fs/cgroup/abuse/x", O_RDONLY | O_DIRECTORY);
	struct clone_args args = { .flags = CLONE_INTO_CGROUP, .exit_signal = SIGCHLD, .cgroup = (__u64)group };
	long pid = syscall(SYS_clone3, &args, sizeof args);
	if (pid == 0)
		_exit(0);
	reap();
}

/* Processes that fork into a group are killed at any moment. */
static void intos(void)
{
	pid_t *v = &victims[dice(MANY)];
	mkdir("/sys/fs/cgroup/abuse/x", 0755);
	if (*v)
		kill(*v, SIGKILL);
	if (*v == 0 || waitpid(*v, NULL, 0) == *v)
		*v = begin(fork_into);
	usleep(dice(800));
}

/* ---------------------------------------------------------------- groups */

static void fork_and_wait_little(void)
{
	if (fork() == 0) {
		usleep(dice(5000));
		_exit(0);
	}
	reap();
	usleep(300);
}

static void vfork_once(void)
{
	pid_t pid = vfork();
	if (pid == 0)
		_exit(0);
	waitpid(pid, NULL, 0);
}

static void begin_in(const char *group, void (*work)(void))
{
	char file[64];
	if (fork())
		return;
	snprintf(file, sizeof file, "/abuse/%s/cgroup.procs", group);
	put(file, "0");
	begin(work);
	begin(work);
	for (;;)
		work();
}

/* Groups are killed while they are full of processes that fork. */
static void kills(void)
{
	mkdir("/sys/fs/cgroup/abuse/k", 0755);
	for (int i = 0; i < 6; i++)
		begin_in("k", fork_and_wait_little);
	usleep(dice(20000));
	put("/abuse/k/cgroup.kill", "1");
	reap();
	rmdir("/sys/fs/cgroup/abuse/k");
}

/* Three programs freeze, move and kill the same processes in parallel. */
static void freeze_any(void)
{
	put(dice(2) ? "/abuse/k/cgroup.freeze" : "/abuse/l/cgroup.freeze", dice(2) ? "1" : "0");
}

static void move_any(void)
{
	char text[4096], *end;
	int from = open(dice(2) ? "/sys/fs/cgroup/abuse/k/cgroup.procs" : "/sys/fs/cgroup/abuse/l/cgroup.procs", O_RDONLY);
	ssize_t n = from < 0 ? 0 : read(from, text, sizeof text - 1);
	if (from >= 0)
		close(from);
	text[n > 0 ? n : 0] = 0;
	for (char *at = text; (end = strchr(at, '\n')); at = end + 1) {
		*end = 0;
		put(dice(2) ? "/abuse/k/cgroup.procs" : "/abuse/l/cgroup.procs", at);
	}
}

static void mixes(void)
{
	static int begun;
	mkdir("/sys/fs/cgroup/abuse/k", 0755);
	mkdir("/sys/fs/cgroup/abuse/l", 0755);
	if (!begun++) {
		begin(freeze_any);
		begin(move_any);
	}
	for (int i = 0; i < 4; i++)
		begin_in("k", i % 2 ? fork_and_wait_little : vfork_once);
	usleep(dice(20000));
	put(dice(2) ? "/abuse/k/cgroup.kill" : "/abuse/l/cgroup.kill", "1");
	reap();
}

static void sleep_long(void)
{
	usleep(1000000);
}

/* A group of many is frozen and thawed without a pause, so that there are always orders for the supervisor. */
static void toggles(void)
{
	static int file = -1;
	static unsigned value;
	if (file < 0) {
		mkdir("/sys/fs/cgroup/abuse/k", 0755);
		for (int i = 0; i < 6 * MANY; i++)
			begin_in("k", sleep_long);
		usleep(200000);
		file = open("/sys/fs/cgroup/abuse/k/cgroup.freeze", O_WRONLY);
		for (int i = 0; i < 2; i++)
			if (fork() == 0)
				break;
	}
	if (pwrite(file, value++ % 2 ? "1" : "0", 1, 0) != 1)
		usleep(1000);
}

int main(int argc, char **argv)
{
	static const struct way ways[] = { { "stops", stops }, { "intos", intos }, { "kills", kills }, { "mixes", mixes },
		{ "toggles", toggles } };
	return go_on(argc > 1 ? argv[1] : "", ways, sizeof ways / sizeof *ways);
}
