#include "engine/trace_file.h"
#include "common/message.h"
#include <errno.h>
#include <fcntl.h>
#include <string.h>
#include <time.h>
#include <unistd.h>

/* It never waits: a FIFO without a reader is refused and not opened. It is known whether it was made: it is removed then if the mount
   does not begin. */
static void open_to_write(struct trace_file *k)
{
	const int flags = O_WRONLY | O_CLOEXEC | O_NONBLOCK;
	k->fd = open(k->name, flags);
	if (k->fd >= 0)
		return;
	k->fd = open(k->name, flags | O_CREAT | O_EXCL, 0600);
	k->was_made = k->fd >= 0;
	if (k->fd < 0) /* the name is there, perhaps of a link to nothing, which is not to be removed */
		k->fd = open(k->name, flags | O_CREAT, 0600);
}

bool trace_file_open(struct trace_file *k, const char *name)
{
	*k = (struct trace_file){ .fd = -1, .name = name };
	if (!name)
		return true;
	open_to_write(k);
	if (k->fd < 0 || fstat(k->fd, &k->is)) {
		say("%s cannot be written: %s", name, strerror(errno));
		return false;
	}
	if (!S_ISREG(k->is.st_mode) && !S_ISCHR(k->is.st_mode)) {
		say("%s cannot keep lines: it is neither a regular file nor a character device", name);
		return false;
	}
	return true;
}

/* Two options with one regular file would overwrite each other's text. A character device, as
   /dev/null, may be both. What is not open is no regular file, and on no device. */
bool trace_file_is_same(const struct trace_file *a, const struct trace_file *b)
{
	return S_ISREG(a->is.st_mode) && a->is.st_dev == b->is.st_dev && a->is.st_ino == b->is.st_ino;
}

/* Both files are opened and looked at before either is emptied: options that are refused leave an
   old trace as it was. */
bool trace_file_begin(struct trace_file *k)
{
	if (!S_ISREG(k->is.st_mode) || ftruncate(k->fd, 0) == 0)
		return true;
	say("%s cannot be emptied: %s", k->name, strerror(errno));
	return false;
}

void trace_file_abandon(struct trace_file *k)
{
	if (k->was_made)
		unlink(k->name);
}

/* Cuts off what a refused text left. If that fails too, the next text overwrites it, or the close cuts it off. */
static void cut_rest(struct trace_file *k)
{
	k->has_rest = ftruncate(k->fd, k->size) != 0;
}

/* A write that returns 0 has no errno: EIO. A regular file is cut to its last whole text. A
   character device that took a part cannot take it back, so it gets no further text: else the
   replay would read half a line. */
static int fault_of(struct trace_file *k, size_t done)
{
	int fault = errno ? errno : EIO;
	if (S_ISREG(k->is.st_mode))
		cut_rest(k);
	else if (done)
		k->broken = fault;
	return -fault;
}

int trace_file_add(struct trace_file *k, const char *bytes, size_t size)
{
	bool regular = S_ISREG(k->is.st_mode);
	if (k->fd < 0)
		return 0;
	if (k->broken)
		return -k->broken;
	for (size_t done = 0; done < size;) {
		errno = 0;
		/* pwrite at the end of what counts: what an earlier failure left behind it is overwritten. */
		ssize_t n = regular ? pwrite(k->fd, bytes + done, size - done, k->size + (off_t)done)
							: write(k->fd, bytes + done, size - done);
		if (n < 0 && errno == EINTR)
			continue;
		if (n <= 0)
			return fault_of(k, done);
		done += (size_t)n;
	}
	k->size += (off_t)size;
	return 0;
}

/* A character device has taken the text, and cannot be cut. There only the size is corrected. */
void trace_file_take_back(struct trace_file *k, off_t size)
{
	k->size = size;
	cut_rest(k);
}

/* It reads the name alone, which stays as it is. */
static void *tell_long(void *of)
{
	const char *name = ((const struct trace_file *)of)->name;
	say("%s is longer than 16,777,216 bytes, which cgreplay refuses: replay it by cgshell < %s", name, name);
	return NULL;
}

bool trace_file_tell_long(struct trace_file *k)
{
	if (k->was_told)
		return false;
	k->was_told = pthread_create(&k->teller, NULL, tell_long, k) == 0;
	return k->was_told;
}

/* The process is about to end, and with it a thread that still waits. */
static void wait_for_teller(struct trace_file *k)
{
	struct timespec end;
	clock_gettime(CLOCK_REALTIME, &end); /* cannot fail: there is such a clock */
	end.tv_sec++;
	if (k->was_told)
		pthread_timedjoin_np(k->teller, NULL, &end);
}

void trace_file_close(struct trace_file *k)
{
	if (k->fd < 0)
		return;
	wait_for_teller(k);
	if (k->has_rest)
		cut_rest(k);
	close(k->fd);
}
