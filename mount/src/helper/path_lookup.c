#include "helper/path_lookup.h"
#include "channels/roots.h"
#include "common/beneath.h"
#include "common/cleanup.h"
#include "common/kernel.h"
#include "common/proc_status.h"
#include "helper/proc_numbers.h"
#include <fcntl.h>
#include <limits.h>
#include <linux/openat2.h>
#include <stdint.h>
#include <string.h>
#include <sys/stat.h>
#include <sys/syscall.h>

enum { LINKS = 40 }; /* as many as the kernel follows */

/* ---------------------------------------------------------------- process numbers */

/* A namespace is a file of the kernel's file system for them: two are equal if their inodes are. */
bool path_lookup_same_numbers(pid_t a, pid_t b)
{
	char path[40];
	struct stat one, other;
	snprintf(path, sizeof path, "%d/ns/pid", a);
	if (stat(path, &one))
		return false;
	snprintf(path, sizeof path, "%d/ns/pid", b);
	return stat(path, &other) == 0 && one.st_ino == other.st_ino && one.st_dev == other.st_dev;
}

pid_t path_lookup_process_of(pid_t thread)
{
	return (pid_t)proc_status_number(thread, "Tgid:");
}

/* The caller is the helper. Its parent is the supervisor, which traces its other children, except those of makhloeum.
   In another PID namespace none of these has a number. */
bool path_lookup_is_own(pid_t thread, pid_t number)
{
	if (!path_lookup_same_numbers(thread, getpid()))
		return false;
	return number == getppid() ||
		(proc_status_number(number, "PPid:") == getppid() && proc_status_number(number, "TracerPid:") == 0);
}

pid_t path_lookup_seen_from(pid_t thread, pid_t number)
{
	struct dirent *entry;
	if (path_lookup_same_numbers(thread, getpid()))
		return path_lookup_process_of(number);
	cleanup_directory DIR *all = opendir(".");
	if (!all)
		return -errno;
	while ((entry = readdir(all))) {
		pid_t pid = (pid_t)strtol(entry->d_name, NULL, 10);
		if (pid > 0 && proc_status_number(pid, "NStgid:") == number && path_lookup_same_numbers(pid, thread))
			return pid;
	}
	return -1;
}

pid_t path_lookup_thread_seen_from(pid_t thread, pid_t process, pid_t number)
{
	char path[40];
	struct dirent *entry;
	if (path_lookup_same_numbers(thread, getpid()))
		return number;
	snprintf(path, sizeof path, "%d/task", process);
	cleanup_directory DIR *all = opendir(path);
	if (!all)
		return -errno;
	while ((entry = readdir(all))) {
		pid_t id = (pid_t)strtol(entry->d_name, NULL, 10);
		if (id > 0 && proc_status_number(id, "NSpid:") == number)
			return id;
	}
	return -1;
}

/* ---------------------------------------------------------------- one step of a path */

/* How far a walk has come. `rest` is what is left of the path; `resolve`: the rules of openat2 by which it goes;
   `before`: where it was before its last step, or -1. `root`, `at` and `before` are descriptors with O_PATH, which the
   walk closes as it goes on. `links`: how many it has followed. */
struct walk {
	pid_t thread;
	int root, at, before;
	int links;
	bool to_directory; /* a slash follows the last name */
	uint64_t resolve;
	char rest[2 * PATH_MAX];
};

/* /proc/N is this process's own copy (proc_status_enter): the program can't mount anything over it. */
static int open_of(pid_t thread, const char *what)
{
	char path[64];
	snprintf(path, sizeof path, "%d/%s", thread, what);
	return open(path, O_PATH | O_CLOEXEC);
}

/* Only the superuser may open the directory of descriptors of a process that is not dumpable, but a process that may trace it may get
   one. The descriptor is a copy: it shares the offset, and stays open when the program closes its own. */
static int take_of(pid_t process, pid_t thread, int fd)
{
	cleanup_fd int of_thread = thread ? open_thread(thread) : -1;
	/* before Linux 6.9 only of the process, whose threads have the same ones as a rule */
	cleanup_fd int of = of_thread >= 0 ? steal_fd(&of_thread) : open_process(process);
	return of < 0 ? -1 : (int)syscall(SYS_pidfd_getfd, of, fd, 0);
}

int path_lookup_take(pid_t thread, int fd)
{
	return take_of(path_lookup_process_of(thread), thread, fd);
}

int path_lookup_of_descriptor(pid_t thread, int fd)
{
	char what[32];
	snprintf(what, sizeof what, "fd/%d", fd);
	int found = open_of(thread, what);
	/* EACCES: the process is not dumpable. */
	if (found >= 0 || errno != EACCES)
		return found;
	cleanup_fd int taken = path_lookup_take(thread, fd);
	snprintf(what, sizeof what, "self/fd/%d", taken);
	return taken < 0 ? -1 : open(what, O_PATH | O_CLOEXEC);
}

/* One file may be seen in several mounts: there its `..` leads elsewhere. So the mount is compared too. */
static bool are_same(const struct statx *one, const struct statx *other)
{
	return one->stx_ino == other->stx_ino && one->stx_mnt_id == other->stx_mnt_id && is_same_device(one, other);
}

static bool is_same(int a, int b)
{
	struct statx one, other;
	return describe(a, STATX_INO | STATX_MNT_ID, &one) && describe(b, STATX_INO | STATX_MNT_ID, &other) &&
		are_same(&one, &other);
}

static bool is_same_mount(int a, int b)
{
	struct mount_id one, other;
	return beneath_identify(a, &one) && beneath_identify(b, &other) && beneath_is_same_mount(&one, &other);
}

static bool is_link(int fd)
{
	struct statx st;
	return describe(fd, STATX_TYPE, &st) && S_ISLNK(st.stx_mode);
}

static bool is_directory(int fd)
{
	struct statx st;
	return describe(fd, STATX_TYPE, &st) && S_ISDIR(st.stx_mode);
}

/* The walk owns `to` from now on. */
static void go(struct walk *w, int to)
{
	close_at(&w->before);
	w->before = w->at;
	w->at = to;
}

/* Puts the text of a link before the rest. As in the kernel: the link's text takes the link's place in the path. */
static bool go_on_with(struct walk *w, const char *text)
{
	char rest[sizeof w->rest];
	int n = snprintf(rest, sizeof rest, "%s%s%s", text, w->rest[0] || w->to_directory ? "/" : "", w->rest);
	if (n < 0 || (size_t)n >= sizeof rest)
		return false;
	memcpy(w->rest, rest, (size_t)n + 1);
	if (text[0] != '/')
		return true;
	if (w->resolve & RESOLVE_BENEATH)
		return false;
	int root = fcntl(w->root, F_DUPFD_CLOEXEC, 0);
	if (root >= 0)
		go(w, root);
	return root >= 0;
}

/* /proc/self and /proc/thread-self mean the thread as it is numbered where that /proc was mounted. */
static bool follow_self(struct walk *w, const char *name)
{
	char text[64];
	struct proc_numbers numbers = proc_numbers_of(w->thread, w->at, w->at);
	pid_t process = proc_numbers_self(&numbers, false), thread = proc_numbers_self(&numbers, true);
	proc_numbers_close(&numbers);
	if (process <= 0 || thread <= 0)
		return false;
	if (strcmp(name, "self") == 0)
		snprintf(text, sizeof text, "%d", process);
	else
		snprintf(text, sizeof text, "%d/task/%d", process, thread);
	return go_on_with(w, text);
}

/* A descriptor of a process that is not dumpable. The name of the directory tells whose it is: it is in this process's
   own /proc, so its numbers are known here. */
static int take_descriptor(int directory, const char *name)
{
	char link[40], path[64], number[16];
	int end = 0, process = 0, thread = 0, fd = (int)strtol(name, NULL, 10);
	snprintf(number, sizeof number, "%d", fd);
	snprintf(link, sizeof link, "self/fd/%d", directory);
	ssize_t n = readlink(link, path, sizeof path - 1);
	path[n < 0 ? 0 : n] = 0;
	if (sscanf(path, "/proc/%d/task/%d/fd%n", &process, &thread, &end) != 2)
		sscanf(path, "/proc/%d/fd%n", &process, &end);
	if (!proc_numbers_is_own(directory) || !end || path[end] || fd < 0 || strcmp(name, number) != 0)
		return -1;
	return take_of(process, thread, fd);
}

static bool follow(struct walk *w, int link, const char *name)
{
	char text[PATH_MAX];
	/* The kernel then fails with ELOOP. The call is left to it, and it says so itself. */
	if (++w->links > LINKS || w->resolve & RESOLVE_NO_SYMLINKS)
		return false;
	if (proc_numbers_is_proc(link)) {
		bool at_root = proc_numbers_is_root(w->at);
		if (at_root && (strcmp(name, "self") == 0 || strcmp(name, "thread-self") == 0))
			return follow_self(w, name);
		/* The kernel goes to the file itself, and reads no text: O_PATH without O_NOFOLLOW does the same here. These
		   rules of openat2 forbid it. */
		if (!at_root) { /* not a text but a file: a descriptor, a directory, a program */
			if (w->resolve & (RESOLVE_NO_MAGICLINKS | RESOLVE_BENEATH | RESOLVE_IN_ROOT))
				return false;
			int to = openat(w->at, name, O_PATH | O_CLOEXEC);
			if (to >= 0)
				go(w, to);
			return to >= 0;
		}
	}
	ssize_t n = readlinkat(link, "", text, sizeof text - 1);
	if (n <= 0)
		return false;
	text[n] = 0;
	return go_on_with(w, text);
}

/* Takes the first name of the rest. False at the end of the path. Several slashes are one. The last name is told
   apart, since O_NOFOLLOW is about it alone. */
static bool take_name(struct walk *w, char name[NAME_MAX + 1], bool *is_last)
{
	size_t from = strspn(w->rest, "/"), n = strcspn(w->rest + from, "/");
	if (n == 0 || n > NAME_MAX)
		return false;
	memcpy(name, w->rest + from, n);
	name[n] = 0;
	*is_last = w->rest[from + n] == 0;
	const char *rest = w->rest + from + n;
	rest += strspn(rest, "/");
	w->to_directory = !*is_last && *rest == 0;
	memmove(w->rest, rest, strlen(rest) + 1);
	return true;
}

/* The kernel follows no link here: it would begin a link's absolute path at the root of this process, not of the program. */
static bool step(struct walk *w, const char *name, bool follows)
{
	bool is_up = strcmp(name, "..") == 0;
	if (is_up && w->resolve & RESOLVE_BENEATH && is_same(w->at, w->root))
		return false;
	if (strcmp(name, ".") == 0 || (is_up && is_same(w->at, w->root)))
		return is_directory(w->at);
	/* This may block, in a file system of the program: the thread has no lock. */
	cleanup_fd int next = openat(w->at, name, O_PATH | O_NOFOLLOW | O_CLOEXEC);
	bool denied = next < 0 && errno == EACCES && follows && w->resolve == 0 && proc_numbers_is_proc(w->at);
	if (denied)
		next = take_descriptor(w->at, name);
	if (next < 0)
		return false;
	/* A mount that the program has put there ends such a walk, as in the kernel. */
	if (w->resolve & RESOLVE_NO_XDEV && !denied && !is_same_mount(w->at, next))
		return false;
	if (!denied && follows && is_link(next))
		return follow(w, next, name);
	go(w, steal_fd(&next));
	return true;
}

/* It owns `from`. The result belongs to the caller. */
static int walk_by_hand(pid_t thread, int root, int from, const char *path, bool follows, uint64_t resolve, int *before)
{
	char name[NAME_MAX + 1];
	bool is_last;
	struct walk w = { .thread = thread, .root = root, .at = from, .before = -1, .resolve = resolve };
	bool found = snprintf(w.rest, sizeof w.rest, "%s", path) < (int)sizeof w.rest;
	while (found && take_name(&w, name, &is_last))
		found = step(&w, name, follows || !is_last);
	cleanup_fd int above = w.before, at = w.at;
	if (found && w.rest[strspn(w.rest, "/")] == 0 && (!w.to_directory || is_directory(w.at))) {
		if (before)
			*before = steal_fd(&above);
		return steal_fd(&at);
	}
	return -1;
}

/* ---------------------------------------------------------------- the whole path */

/* Where the walk begins: the directory, or with an absolute path the root. With RESOLVE_IN_ROOT the directory is the
   root. The result belongs to the caller. */
static int open_start(pid_t thread, int root, int directory, const char *path, uint64_t resolve)
{
	if (path[0] == '/' && !(resolve & RESOLVE_IN_ROOT))
		return resolve & RESOLVE_BENEATH ? -1 : fcntl(root, F_DUPFD_CLOEXEC, 0);
	return directory == AT_FDCWD ? open_of(thread, "cwd") : path_lookup_of_descriptor(thread, directory);
}

/* ---------------------------------------------------------------- a path that crosses no mount */

static struct {
	int fd; /* -1: it is of /proc, or not known */
	struct statx is;
	bool is_programs; /* the program began with it */
} own_root = { .fd = -1 };

/* It sends no request to a file system: the root may be of one that does not answer. */
static bool has_own_root(pid_t thread)
{
	char path[40];
	struct statx is;
	snprintf(path, sizeof path, "%d/root", thread);
	return statx(AT_FDCWD, path, AT_STATX_DONT_SYNC | AT_NO_AUTOMOUNT, STATX_INO | STATX_MNT_ID, &is) == 0 &&
		are_same(&is, &own_root.is);
}

/* This process has the program's root already (share_root). If that root is in a /proc, or can't be described, no path
   is known to stay outside. */
void path_lookup_begin(pid_t program)
{
	own_root.fd = open("/", O_PATH | O_CLOEXEC);
	if (own_root.fd >= 0 &&
		(proc_numbers_is_proc(own_root.fd) || !describe(own_root.fd, STATX_INO | STATX_MNT_ID, &own_root.is)))
		close_at(&own_root.fd);
	own_root.is_programs = has_own_root(program);
}

/* The number of the root's mount is that of no other, since the mount stays open. A relative path follows no links,
   since their root is not known. */
bool path_lookup_stays_outside_proc(pid_t thread, int directory, const char *path, bool follows)
{
	bool is_absolute = path[0] == '/';
	struct open_how how = { .flags = (uint64_t)(O_PATH | O_CLOEXEC | (follows ? 0 : O_NOFOLLOW)),
		.resolve = RESOLVE_NO_XDEV | (is_absolute ? RESOLVE_IN_ROOT | RESOLVE_NO_MAGICLINKS : RESOLVE_NO_SYMLINKS) };
	if (own_root.fd < 0 || path[0] == 0)
		return false;
	/* As long as no process has changed its root, all have the program's, and no thread's is looked at. */
	if (!(own_root.is_programs && !roots_have_changed()) && !has_own_root(thread))
		return false;
	cleanup_fd int from = is_absolute ? -1 : open_start(thread, -1, directory, path, 0);
	if (!is_absolute && (from < 0 || proc_numbers_is_proc(from)))
		return false;
	/* NO_XDEV: a path that crosses no mount can't lead into /proc. The kernel then answers the open itself, since a
	   file that is not of /proc needs no text. ENOENT is its own answer too. */
	cleanup_fd int found = (int)syscall(SYS_openat2, is_absolute ? own_root.fd : from, path, &how, sizeof how);
	return found >= 0 || errno == ENOENT;
}

/* If the thread has the root of this process, the kernel finds the file directly. The exceptions are files of /proc,
   where it depends on who asks, and files that this process does not see. A walk by other rules than the usual ones
   that does not succeed here is the kernel's to refuse. */
int path_lookup_find(pid_t thread, int directory, const char *path, bool follows, uint64_t resolve, int *before)
{
	if (before)
		*before = -1;
	errno = 0;
	cleanup_fd int root = open_of(thread, "root");
	cleanup_fd int own = open("/", O_PATH | O_CLOEXEC);
	cleanup_fd int from = root < 0 ? -1 : open_start(thread, root, directory, path, resolve);
	if (from < 0 || path[0] == 0)
		return -1; /* cppcheck-suppress resourceLeak ; the cleanup attribute closes them */
	/* Both rules make the starting directory the root of the walk. */
	if (resolve & (RESOLVE_BENEATH | RESOLVE_IN_ROOT)) {
		int top = fcntl(from, F_DUPFD_CLOEXEC, 0);
		if (top < 0)
			return -1;
		close_at(&root);
		root = top;
	}
	if (is_same(root, own) && resolve == 0) {
		struct open_how how = { .flags = (uint64_t)(O_PATH | O_CLOEXEC | (follows ? 0 : O_NOFOLLOW)),
			.resolve = RESOLVE_NO_MAGICLINKS };
		cleanup_fd int found = (int)syscall(SYS_openat2, from, path, &how, sizeof how);
		/* What is found in /proc was found with this process's numbers and its own /proc/self, so it is looked up
		   again, by hand. */
		if (found >= 0 && !proc_numbers_is_proc(found))
			return steal_fd(&found);
	}
	return walk_by_hand(thread, root, steal_fd(&from), path, follows, resolve, before);
}
