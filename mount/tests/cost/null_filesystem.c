/* A file system that does nothing: one directory with one file of a fixed text. What it costs is FUSE's own. */
#include <errno.h>
#include <fuse3/fuse.h>
#include <string.h>

static const char text[] = "nr_descendants 0\nnr_dying_descendants 0\n";

static int look(const char *path, struct stat *st, struct fuse_file_info *fi)
{
	(void)fi;
	memset(st, 0, sizeof *st);
	if (strcmp(path, "/") == 0) {
		st->st_mode = S_IFDIR | 0755;
		st->st_nlink = 2;
		return 0;
	}
	if (strcmp(path, "/file"))
		return -ENOENT;
	st->st_mode = S_IFREG | 0644;
	st->st_nlink = 1;
	return 0;
}

static int open_it(const char *path, struct fuse_file_info *fi)
{
	fi->direct_io = 1;
	return strcmp(path, "/file") ? -ENOENT : 0;
}

static int read_it(const char *path, char *out, size_t size, off_t at, struct fuse_file_info *fi)
{
	(void)path, (void)fi;
	size_t n = sizeof text - 1;
	if ((size_t)at >= n)
		return 0;
	if (size > n - (size_t)at)
		size = n - (size_t)at;
	memcpy(out, text + at, size);
	return (int)size;
}

static int write_it(const char *path, const char *data, size_t size, off_t at, struct fuse_file_info *fi)
{
	(void)path, (void)data, (void)at, (void)fi;
	return (int)size;
}

static int cut_it(const char *path, off_t size, struct fuse_file_info *fi)
{
	(void)path, (void)size, (void)fi;
	return 0;
}

static void *start(struct fuse_conn_info *connection, struct fuse_config *config)
{
	(void)connection;
	config->entry_timeout = config->attr_timeout = config->negative_timeout = 0;
	config->direct_io = 1;
	config->nullpath_ok = 1;
	return NULL;
}

static const struct fuse_operations operations = {
	.init = start,
	.getattr = look,
	.open = open_it,
	.read = read_it,
	.write = write_it,
	.truncate = cut_it,
};

int main(int argc, char **argv)
{
	return fuse_main(argc, argv, &operations, NULL);
}
