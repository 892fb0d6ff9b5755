/* stalled DIRECTORY: a file system whose file `page` can be opened and mapped, and whose reads are never answered. Its file
   `slow` takes a second to close; its file `asked` is there once a read has come, until somebody looks for `go`. Reads of its file `late`
   are answered after that, and its file `kept` can be closed once somebody has looked for `close`; neither is there. Nor is a
   name that begins with `hidden`, which takes a second to look for. */
#include <errno.h>
#include <fuse3/fuse.h>
#include <stdatomic.h>
#include <stdbool.h>
#include <string.h>
#include <unistd.h>

static atomic_bool asked, let_go, let_close;

static int get(const char *path, struct stat *st, struct fuse_file_info *fi)
{
	(void)fi;
	memset(st, 0, sizeof *st);
	st->st_mode = strcmp(path, "/") == 0 ? S_IFDIR | 0755 : S_IFREG | 0444;
	st->st_size = 4096;
	if (strncmp(path, "/hidden", 7) == 0)
		sleep(1);
	if (strcmp(path, "/asked") == 0)
		return atomic_load(&asked) ? 0 : -ENOENT;
	if (strcmp(path, "/go") == 0) {
		atomic_store(&let_go, true);
		atomic_store(&asked, false);
	}
	if (strcmp(path, "/close") == 0)
		atomic_store(&let_close, true);
	static const char *const there[] = { "/", "/page", "/slow", "/late", "/kept" };
	for (size_t i = 0; i < sizeof there / sizeof *there; i++)
		if (strcmp(path, there[i]) == 0)
			return 0;
	return -ENOENT;
}

static int read_late(const char *path, char *out, size_t size, off_t at, struct fuse_file_info *fi)
{
	(void)at, (void)fi;
	atomic_store(&asked, true);
	while (strcmp(path, "/late") != 0)
		pause();
	while (!atomic_load(&let_go))
		usleep(1000);
	memset(out, 0, size);
	return (int)size;
}

static int close_slowly(const char *path, struct fuse_file_info *fi)
{
	(void)fi;
	if (strcmp(path, "/slow") == 0)
		sleep(1);
	while (strcmp(path, "/kept") == 0 && !atomic_load(&let_close))
		usleep(1000);
	return 0;
}

/* It says what the mount says of a group, as any file system of a program may. */
static int claim(const char *path, const char *name, char *out, size_t size)
{
	static const char group[] = "/stays";
	(void)path;
	if (strcmp(name, "system.makhloeum.group") != 0)
		return -ENODATA;
	if (size >= sizeof group)
		memcpy(out, group, sizeof group - 1);
	return sizeof group - 1;
}

static const struct fuse_operations operations = { .getattr = get,
	.read = read_late,
	.flush = close_slowly,
	.getxattr = claim };

int main(int argc, char **argv)
{
	char *words[] = { argv[0], "-f", argv[1] };
	return argc == 2 ? fuse_main(3, words, &operations, NULL) : 2;
}
