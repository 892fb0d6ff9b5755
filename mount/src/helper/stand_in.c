#include "helper/stand_in.h"
#include "common/cleanup.h"
#include "common/own_processes.h"
#include "common/proc_status.h"
#include <fcntl.h>
#include <linux/capability.h>
#include <sched.h>
#include <signal.h>
#include <sys/fsuid.h>
#include <sys/stat.h>
#include <sys/syscall.h>
#include <sys/wait.h>

/* In the order in which they are entered: once it is in the thread's user namespace, a process may not enter those that belong to
   one above. That of cgroups has no effect on what is mounted here. */
static const struct {
	const char *name;
	int kind;
} spaces[] = { { "net", CLONE_NEWNET }, { "ipc", CLONE_NEWIPC }, { "pid", CLONE_NEWPID }, { "mnt", CLONE_NEWNS },
	{ "user", CLONE_NEWUSER } };
enum { SPACES = sizeof spaces / sizeof *spaces, PID_SPACE = 2 };

/* What a thread has. */
/* The descriptors belong to stand_in_call, which closes them after the call. */
struct place {
	int spaces[SPACES]; /* -1: that of this process */
	int root, directory;
	long user, group; /* those that count for files */
	struct __user_cap_data_struct capabilities[_LINUX_CAPABILITY_U32S_3];
};

/* Not with O_PATH: setns needs an open file. */
int stand_in_open_space(pid_t thread, const char *which)
{
	char path[48];
	snprintf(path, sizeof path, "%d/ns/%s", thread, which);
	return open(path, O_RDONLY | O_CLOEXEC);
}

/* False also if that can't be known: then the caller enters the namespace, or is refused. */
bool stand_in_is_own(int space, const char *which)
{
	char path[48];
	struct stat st, own;
	snprintf(path, sizeof path, "self/ns/%s", which);
	return fstat(space, &st) == 0 && stat(path, &own) == 0 && st.st_ino == own.st_ino;
}

static unsigned long long capabilities_of(pid_t thread, const char *which)
{
	char line[64];
	return proc_status_line(thread, which, line, sizeof line) ? strtoull(line, NULL, 16) : 0;
}

/* Of the effective ones, by which the kernel decides. */
bool stand_in_may(pid_t thread, int capability)
{
	return capabilities_of(thread, "CapEff:") >> capability & 1;
}

/* ---------------------------------------------------------------- what the thread has */

/* A descriptor that is -1 is left out. */
static void forget(struct place *p)
{
	for (size_t i = 0; i < SPACES; i++)
		close_at(&p->spaces[i]);
	close_at(&p->root);
	close_at(&p->directory);
}

static int open_of(pid_t thread, const char *what)
{
	char path[48];
	snprintf(path, sizeof path, "%d/%s", thread, what);
	return open(path, O_PATH | O_CLOEXEC);
}

static bool look_at(pid_t thread, struct place *p)
{
	bool found = true;
	for (size_t i = 0; i < SPACES; i++) {
		int fd = stand_in_open_space(thread, spaces[i].name);
		found &= fd >= 0;
		/* setns into the process's own user namespace fails, and into another one that it has is
		   needless. */
		if (fd >= 0 && stand_in_is_own(fd, spaces[i].name)) {
			close(fd);
			fd = -1;
		}
		p->spaces[i] = fd;
	}
	p->root = open_of(thread, "root");
	p->directory = open_of(thread, "cwd");
	p->user = proc_status_number(thread, "Uid:"); /* the last of the line */
	p->group = proc_status_number(thread, "Gid:");
	unsigned long long effective = capabilities_of(thread, "CapEff:");
	for (int i = 0; i < _LINUX_CAPABILITY_U32S_3; i++)
		p->capabilities[i].permitted = p->capabilities[i].effective = (__u32)(effective >> 32 * i);
	return found && p->root >= 0 && p->directory >= 0 && p->user >= 0 && p->group >= 0;
}

/* ---------------------------------------------------------------- the process that makes the call */

/* The status of a child, which the program may stop. It has the program's user, so the program can
   signal it. */
static int end_of(pid_t child)
{
	int status;
	for (;;) {
		pid_t n = waitpid(child, &status, WUNTRACED);
		if (n < 0 || !WIFSTOPPED(status))
			return n > 0 && WIFEXITED(status) ? WEXITSTATUS(status) : EIO;
		kill(child, SIGCONT); /* it cannot fail: it was not waited for */
	}
}

/* The capabilities come last: until then it has all. The ids for files before the namespaces: they
   are numbers of this process's user namespace. The root after the mount namespace, since entering
   that sets the root anew. The kernel forgets the signal of the parent's end when the ids change; what follows it may wait for the
   program. */
static int enter(const struct place *p, pid_t parent)
{
	struct __user_cap_header_struct head = { .version = _LINUX_CAPABILITY_VERSION_3 };
	setfsgid((gid_t)p->group);
	setfsuid((uid_t)p->user);
	for (size_t i = 0; i < SPACES; i++)
		if (p->spaces[i] >= 0 && setns(p->spaces[i], spaces[i].kind))
			return errno;
	if (!own_processes_die_with(parent))
		return EIO;
	if (fchdir(p->root) || chroot(".") || fchdir(p->directory))
		return errno;
	return syscall(SYS_capset, &head, p->capabilities) ? errno : 0;
}

/* Only a child is in another namespace of process numbers, where this process has no number.
   own_processes_die_with(0): in the new namespace its parent has no number. */
static int call_from(const struct place *p, pid_t parent, int (*call)(const void *argument), const void *argument)
{
	int fault = enter(p, parent);
	if (fault || p->spaces[PID_SPACE] < 0)
		return fault ? fault : call(argument);
	pid_t pid = fork();
	if (pid == 0)
		_exit(own_processes_die_with(0) ? call(argument) : EIO);
	return pid < 0 ? errno : end_of(pid);
}

int stand_in_call(pid_t thread, int (*call)(const void *argument), const void *argument)
{
	struct place p;
	if (!look_at(thread, &p)) {
		forget(&p);
		return ENOMEM;
	}
	/* only a process without other threads can enter a namespace */
	pid_t self = getpid(), pid = fork();
	if (pid == 0)
		_exit(call_from(&p, self, call, argument));
	/* The call may block on the program: this thread then waits, and another one takes its place. */
	int fault = pid < 0 ? errno : end_of(pid);
	forget(&p);
	return fault;
}
