#include "companion/companion.h"
#include "common/cleanup.h"
#include "common/group_paths.h"
#include "common/own_processes.h"
#include "common/proc_status.h"
#include <errno.h>
#include <fcntl.h>
#include <limits.h>
#include <signal.h>
#include <stdio.h>
#include <string.h>
#include <sys/mount.h>
#include <sys/socket.h>
#include <sys/stat.h>
#include <sys/wait.h>
#include <unistd.h>

/* TRIES: how often a change is tried that finds no memory, every 10 milliseconds. */
enum { TRIES = 100, TOLD_MAX = 2 * PATH_MAX_SAID };

struct mounted {
	const char *at;
	int root; /* of a run; -1: it is looked up */
	bool is_known;
	/* Of the mount with root -1: known from the message of companion_show on. */
	struct mount_id is;
};

/* Up to the next blank; a table of mounts has three octal digits for some bytes. Cut to the room. */
static void read_path(const char *from, char out[PATH_MAX])
{
	size_t n = 0;
	while (*from && *from != ' ' && n + 1 < PATH_MAX) {
		unsigned byte = (unsigned char)*from;
		from += *from == '\\' && sscanf(from, "\\%3o", &byte) == 1 ? 4 : 1;
		out[n++] = (char)byte;
	}
	out[n] = 0;
}

/* Where the mount is now: a folder above it may have another name. False if it is nowhere, or the table can't be read. */
static bool find_place(const struct mounted *m, char place[PATH_MAX])
{
	cleanup_stream FILE *table = m->is_known ? fopen("self/mountinfo", "re") : NULL;
	cleanup_free char *line = NULL;
	size_t room = 0;
	struct mount_id found;
	while (table && getline(&line, &room, table) > 0) {
		int at = 0, n = sscanf(line, "%llu %*u %u:%u %*s %n", &found.mount, &found.major, &found.minor, &at);
		if (n == 3 && at && beneath_is_same_mount(&found, &m->is)) {
			read_path(line + at, place);
			return true;
		}
	}
	return false;
}

/* The root of the mount, if that is what is mounted there; -1. This may wait for whatever file
   system is mounted there by now. */
static int look_up_at(const struct mounted *m, const char *at)
{
	struct mount_id found;
	cleanup_fd int root = open(at, O_PATH | O_DIRECTORY | O_CLOEXEC);
	bool is_it = root >= 0 && m->is_known && beneath_identify(root, &found) && beneath_is_same_mount(&found, &m->is);
	return is_it ? steal_fd(&root) : -1;
}

static int look_up(const struct mounted *m)
{
	char place[PATH_MAX];
	int root = look_up_at(m, m->at);
	return root < 0 && find_place(m, place) ? look_up_at(m, place) : root;
}

/* The longest path of a group has no room for the name of a file behind it, so the group is opened first. -1 with errno. */
static int open_file(int root, const char *path)
{
	char group[PATH_MAX_SAID + 1];
	const char *name = strrchr(path, '/');
	snprintf(group, sizeof group, "%.*s", (int)(name - path), path);
	cleanup_fd int directory = beneath_open(root, name == path ? "/" : group, O_PATH | O_DIRECTORY);
	return directory < 0 ? -1 : beneath_open(directory, name, O_PATH | O_NOFOLLOW);
}

/* What the program mounts or makes there is never reached: the walk starts at the root of the mount and leaves it nowhere. The server
   leaves out this time, and inotify reports the call only as a modification, since it sets no other time. False: try again. By a path of
   /proc, since futimens takes no descriptor with O_PATH. */
static bool touch_once(int root, const char *path)
{
	static const struct timespec times[2] = { { .tv_nsec = UTIME_OMIT }, { .tv_sec = -MARK } };
	char link[32];
	cleanup_fd int file = open_file(root, path);
	if (file < 0)
		return errno != ENOMEM; /* the group may be gone */
	snprintf(link, sizeof link, "self/fd/%d", file);
	return utimensat(AT_FDCWD, link, times, 0) == 0 || errno != ENOMEM;
}

/* While it tries again, other changes wait in the socket, and then in the server's queue. */
static void touch(const struct mounted *m, const char *path)
{
	cleanup_fd int found = m->root < 0 ? look_up(m) : -1;
	int root = m->root < 0 ? found : m->root;
	for (int i = 0; root >= 0 && i < TRIES && !touch_once(root, path); i++)
		usleep(10000); /* there was no memory: nothing tells when there is some */
}

/* The server has ended. If it was killed, its mount is still there and answers nobody. Any other
   mount stays. ENOTCONN is what a mount answers whose server has ended. */
static void take_away(const struct mounted *m)
{
	char place[PATH_MAX];
	struct stat st;
	const char *mountpoint = find_place(m, place) ? place : m->at;
	if (stat(mountpoint, &st) == 0 || (errno != ENOTCONN && errno != ECONNABORTED))
		return;
	/* Others may use it: it goes once nobody does. Without the right to unmount, fusermount3 has
	   it. */
	if (umount2(mountpoint, MNT_DETACH) == 0)
		return;
	execlp("fusermount3", "fusermount3", "-u", "-q", "-z", "--", mountpoint, (char *)NULL);
}

static void serve(int from, struct mounted *m)
{
	char told[TOLD_MAX];
	ssize_t n;
	/* The server's end is closed when it ends: then recv returns 0. */
	while ((n = recv(from, told, sizeof told - 1, 0)) > 0) {
		told[n] = 0;
		if (told[0] == '/')
			touch(m, told);
		/* A message that begins with a zero byte has the mount's number. */
		else if (n == 1 + sizeof m->is) {
			memcpy(&m->is, told + 1, sizeof m->is);
			m->is_known = true;
		}
	}
	if (m->root < 0)
		take_away(m);
}

/* A reader that waits for the end of the program's output must not wait for this process; and a
   descriptor of the server would keep the mount's connection open. Beyond the three streams all
   are closed but two: the socket and the root. */
static void let_go(int *from, int *root)
{
	int null = open("/dev/null", O_RDWR | O_CLOEXEC);
	for (int fd = 0; fd < 3; fd++)
		if (null < 0 || dup2(null, fd) < 0)
			close(fd);
	int low = *root < 0 || *from < *root ? *from : *root, high = *root < 0 || *from > *root ? *from : *root;
	/* cannot fail: the ranges are not empty, or are left out */
	if (low > 3)
		close_range(3, (unsigned)low - 1, 0);
	if (high > low + 1)
		close_range((unsigned)low + 1, (unsigned)high - 1, 0);
	close_range((unsigned)high + 1, ~0U, 0);
}

/* The companion of a mount outlives the server, so it forks twice, and nobody has to wait for it. The companion of a run
   ends with the supervisor, even if the program has stopped it. */
static void live(int from, const char *mountpoint, int root, pid_t parent, const sigset_t *mask)
{
	struct mounted m = { .at = mountpoint, .root = root };
	/* before the second fork: who waits for the first child knows that these end the companion no more */
	if (root < 0) {
		signal(SIGTERM, SIG_IGN);
		signal(SIGINT, SIG_IGN);
	} else
		own_processes_ignore_signals();
	sigprocmask(SIG_SETMASK, mask, NULL); /* it cannot fail: there is such a way */
	/* The first child ends at once. The second one gets another parent, which waits for it. */
	if (root < 0 && fork())
		_exit(0);
	if (root >= 0 && (!own_processes_die_with(parent) || !proc_status_enter()))
		_exit(1);
	if (root < 0 && chdir("/proc") && chdir("/")) /* without /proc it can only unmount */
		_exit(1);
	setsid(); /* it fails only for the leader of a group, which a child is not */
	let_go(&from, &m.root);
	serve(from, &m);
	_exit(0);
}

bool companion_start(struct companion *out, const char *mountpoint, int root)
{
	int ends[2], fault;
	pid_t self = getpid();
	sigset_t all, mask;
	if (socketpair(AF_UNIX, SOCK_SEQPACKET | SOCK_CLOEXEC, 0, ends))
		return false;
	/* these cannot fail: the signals exist. The program may run, and send some, before the child has ignored them */
	sigfillset(&all);
	sigprocmask(SIG_BLOCK, &all, &mask);
	pid_t pid = fork();
	fault = errno;
	if (pid == 0) {
		close(ends[1]);
		live(ends[0], mountpoint, root, self, &mask);
	}
	sigprocmask(SIG_SETMASK, &mask, NULL); /* as above */
	close(ends[0]);
	if (pid < 0) {
		close(ends[1]);
		errno = fault;
		return false;
	}
	if (root < 0)
		waitpid(pid, NULL, 0); /* for the first child, which ends at once */
	*out = (struct companion){ ends[1], root < 0 ? -1 : pid };
	return true;
}

bool companion_show(int to, const struct mount_id *which)
{
	char told[1 + sizeof *which] = { 0 };
	memcpy(told + 1, which, sizeof *which);
	return send(to, told, sizeof told, MSG_NOSIGNAL) == (ssize_t)sizeof told;
}

/* EAGAIN: its socket is full. */
bool companion_tell_now(int to, const char *path)
{
	return send(to, path, strlen(path), MSG_NOSIGNAL | MSG_DONTWAIT) >= 0;
}

void companion_tell(int to, const char *path)
{
	/* It waits while the socket is full: so a thread without locks calls it. */
	while (send(to, path, strlen(path), MSG_NOSIGNAL) < 0 && (errno == EINTR || errno == ENOBUFS || errno == ENOMEM))
		usleep(10000); /* as above */
}
