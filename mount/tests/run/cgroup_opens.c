/* cgroup_opens TEXT: opens of /proc/self/cgroup, by many paths and flags, and statfs, one line for what came of each. It works in an empty
   folder. TEXT is what the file has to show; without it, anything. alike.py compares what this says alone and under `makhloeum run`. */
#include <errno.h>
#include <fcntl.h>
#include <linux/openat2.h>
#include <stdbool.h>
#include <stdio.h>
#include <stdlib.h>
#include <string.h>
#include <sys/stat.h>
#include <sys/statfs.h>
#include <sys/syscall.h>
#include <unistd.h>

static const char *fault(void)
{
	return strerrorname_np(errno);
}

static const char *wanted_text; /* NULL: any */

/* What an open of a text of /proc came to; and whether the lowest free number is used. */
static void put_open(const char *name, const char *path, int flags, int fd)
{
	char text[4096] = "";
	int lowest = fd < 0 ? -1 : dup(0);
	printf("%s %s %#x: ", name, strlen(path) > 300 ? "(long)" : path, (unsigned)flags);
	if (fd < 0) {
		printf("%s\n", fault());
		return;
	}
	close(lowest);
	int at = fcntl(fd, F_GETFD), has = fcntl(fd, F_GETFL) & (O_APPEND | O_NONBLOCK | O_NOATIME | O_DIRECT | O_ACCMODE);
	ssize_t n = flags & O_PATH ? 0 : read(fd, text, sizeof text - 1);
	bool is_right = n > 0 && (!wanted_text || strcmp(text, wanted_text) == 0);
	printf("%s%s, flags %#x, %s\n", at & FD_CLOEXEC ? "closed by exec, " : "",
		lowest == fd + 1 ? "the lowest number" : "another number", (unsigned)has,
		flags & O_PATH || n == 0 ? "nothing to read"
			: n < 0              ? fault()
			: is_right           ? "the text"
								 : text);
	close(fd);
}

static void open_each(const char *path, int flags)
{
	struct open_how how = { .flags = (unsigned)flags };
	put_open("openat", path, flags, (int)syscall(SYS_openat, AT_FDCWD, path, flags, 0));
	put_open("openat2", path, flags, (int)syscall(SYS_openat2, AT_FDCWD, path, &how, sizeof how));
#ifdef SYS_open
	put_open("open", path, flags, (int)syscall(SYS_open, path, flags, 0));
#endif
}

/* openat2 with each bit of its flags, its mode and its rules alone, most of which it does not know. Whether a text is cached is nobody's
   business. */
static void open_by_each_bit(const char *path)
{
	for (int bit = 0; bit < 64; bit++) {
		const struct open_how one[] = { { .flags = 1ULL << bit }, { .mode = 1ULL << bit }, { .resolve = 1ULL << bit } };
		static const char *const names[] = { "a flag", "a mode", "a rule" };
		for (size_t i = 0; i < sizeof one / sizeof *one; i++)
			if (one[i].resolve != RESOLVE_CACHED)
				put_open(names[i], path, bit, (int)syscall(SYS_openat2, AT_FDCWD, path, &one[i], sizeof *one));
	}
}

static void put_statfs(const char *name, long result)
{
	printf("statfs of %s: %s\n", name, result ? fault() : "ok");
}

int main(int argc, char **argv)
{
	static const int flags[] = { O_RDONLY, O_CLOEXEC, O_NONBLOCK, O_NOFOLLOW, O_DIRECTORY, O_WRONLY, O_RDWR,
		O_RDWR | O_CLOEXEC, O_APPEND, O_CREAT, O_CREAT | O_EXCL, O_PATH, O_PATH | O_CLOEXEC, O_NOATIME, O_SYNC,
		O_NOCTTY, 0100000, O_CLOEXEC | O_NONBLOCK | O_NOCTTY, O_DIRECT, O_DIRECT | O_RDWR,
		O_APPEND | O_NONBLOCK | O_NOATIME, O_TRUNC, O_TRUNC | O_CREAT, O_TRUNC | O_DIRECT };
	static const char *const paths[] = { "/proc/self/cgroup", "/proc/self/cgroup/", "/proc/self/cgroup/.",
		"/proc/self/cgroup/..", "/proc/self/cgroup//", "/proc/self/cgroup/x", "//proc//self//cgroup",
		"/proc/self/./cgroup", "/proc/self/task/../cgroup", "/proc/self/nothing/../cgroup",
		"/proc/self/cgroup/../cgroup", "/proc/self/stat/../cgroup", "/proc/thread-self/cgroup",
		"/proc/self/root/proc/self/cgroup", "/proc/self/cwd/link", "/proc/0/cgroup", "/proc/4194304/cgroup",
		"/proc/-1/cgroup", "/proc/self/cgroupx", "/proc/self/cgrou", "", "link", "link/", "./link", "to-self/cgroup",
		"to-folder/link", "dangling", "loop", "loop/cgroup", "file/../link", "nothing/../link", "folder/../link",
		"folder/up" };
	char path[8200], name[32], before[32];
	struct statfs st;
	if (mkdir("folder", 0700) || symlink("/proc/self/cgroup", "link") || symlink("/proc/self", "to-self") ||
		symlink(".", "to-folder") || symlink("nothing", "dangling") || symlink("loop", "loop") ||
		symlink("../link", "folder/up") || close(open("file", O_CREAT | O_WRONLY, 0600)))
		exit(3);
	wanted_text = argc > 1 ? argv[1] : NULL;
	for (size_t i = 0; i < sizeof flags / sizeof *flags; i++) {
		open_each("/proc/self/cgroup", flags[i]);
		open_each("link", flags[i]);
	}
	open_by_each_bit("/proc/self/cgroup");
	for (size_t i = 0; i < sizeof paths / sizeof *paths; i++)
		open_each(paths[i], O_RDONLY);
	/* Chains of links; the last one and /proc/self are two more. The kernel follows forty, but counts them again if it looks
	   twice. So a chain of forty is opened until it is followed. */
	for (int i = 1; i < 48; i++) {
		snprintf(name, sizeof name, "chain%d", i);
		snprintf(before, sizeof before, i == 1 ? "link" : "chain%d", i - 1);
		if (symlink(before, name))
			exit(3);
		if (i < 18 || i > 38)
			open_each(name, O_RDONLY);
		for (int fd = -1, tries = 0; i == 38 && fd < 0 && tries < 1000; tries++) {
			fd = open(name, O_RDONLY);
			if (fd >= 0 || errno != ELOOP || tries == 999)
				put_open("forty links", name, O_RDONLY, fd);
		}
	}
	/* paths of all lengths near the bounds of a path and of a name */
	for (size_t size = 4090; size < 4100; size++) {
		memset(path, '/', size);
		memcpy(path + size - strlen("proc/self/cgroup"), "proc/self/cgroup", sizeof "proc/self/cgroup");
		open_each(path, O_RDONLY);
	}
	for (size_t size = 253; size < 258; size++) {
		memset(path, 'n', size);
		path[size] = 0;
		if (symlink("/proc/self", path) && errno != ENAMETOOLONG)
			exit(3);
		strcpy(path + size, "/cgroup");
		open_each(path, O_RDONLY);
	}
	int folder = open("/proc/self", O_RDONLY | O_DIRECTORY), file = open("file", O_RDONLY), gone = dup(file);
	close(gone);
	put_open("openat below a directory", "cgroup", 0, openat(folder, "cgroup", O_RDONLY));
	put_open("openat below a file", "cgroup", 0, openat(file, "cgroup", O_RDONLY));
	put_open("openat below nothing", "cgroup", 0, openat(gone, "cgroup", O_RDONLY));
	put_open("openat below nothing, absolute", "/proc/self/cgroup", 0, openat(gone, "/proc/self/cgroup", O_RDONLY));
	put_open("an empty path", "", 0, openat(folder, "", O_RDONLY));
	put_open("a bad address", "", 0, (int)syscall(SYS_openat, AT_FDCWD, 8, O_RDONLY));
	put_statfs("a file", statfs("file", &st));
	put_statfs("nothing", statfs("nothing", &st));
	put_statfs("a bad address", syscall(SYS_statfs, 8, &st));
	put_statfs("/, into a bad address", syscall(SYS_statfs, "/", 8));
	put_statfs("/sys/fs/cgroup, into a bad address", syscall(SYS_statfs, "/sys/fs/cgroup", 8));
	put_statfs("a file below", statfs("/sys/fs/cgroup/nothing", &st));
	put_statfs("a loop", statfs("loop", &st));
	put_statfs("a descriptor", fstatfs(file, &st));
	put_statfs("no descriptor", fstatfs(gone, &st));
	put_statfs("-1", fstatfs(-1, &st));
	put_statfs("an empty path", statfs("", &st));
	return fflush(stdout) ? 1 : 0;
}
