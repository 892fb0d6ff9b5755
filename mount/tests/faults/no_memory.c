/* For LD_PRELOAD: refuses one allocation of the program MAKHLOEUM, or that one and all after it. NO_MEMORY is a file that all
   its processes and the test share: how many allocations are made until one is refused (0: none is; -1: all are), how many
   were refused, whether all after it are, and the size of those that count (0: any). Memory that processes share is one too. Two of
   libfuse are never refused, since without them it ends the mount: for each of its threads a buffer, which is larger than LARGE, and a
   context of CONTEXT bytes. */
#include <errno.h>
#include <fcntl.h>
#include <stdatomic.h>
#include <stdbool.h>
#include <stdlib.h>
#include <string.h>
#include <sys/mman.h>
#include <sys/syscall.h>
#include <unistd.h>

enum { LARGE = 512 * 1024, CONTEXT = 48, PATH = 4096 };

void *__libc_malloc(size_t size);
void *__libc_calloc(size_t count, size_t size);
void *__libc_realloc(void *old, size_t size);

static struct shared {
	atomic_long left, refused, all, size;
} none, *shared = &none;

__attribute__((constructor)) static void begin(void)
{
	char self[PATH], wanted[PATH];
	const char *file = getenv("NO_MEMORY"), *program = getenv("MAKHLOEUM");
	ssize_t n = readlink("/proc/self/exe", self, sizeof self - 1);
	if (!file || !program || n <= 0 || !realpath(program, wanted))
		return;
	self[n] = 0;
	int fd = strcmp(self, wanted) == 0 ? open(file, O_RDWR | O_CLOEXEC) : -1;
	void *at = fd < 0 ? MAP_FAILED : mmap(NULL, sizeof *shared, PROT_READ | PROT_WRITE, MAP_SHARED, fd, 0);
	if (at != MAP_FAILED)
		shared = at;
	if (fd >= 0)
		close(fd);
}

/* The test may end the refusals at any moment. */
static bool refuses(size_t size)
{
	long left = size > LARGE ? 0 : atomic_load(&shared->left), next, wanted = atomic_load(&shared->size);
	if (wanted && size != (size_t)wanted)
		return false;
	do
		next = left == 1 ? -(atomic_load(&shared->all) != 0) : left - 1;
	while (left > 0 && !atomic_compare_exchange_weak(&shared->left, &left, next));
	if (left == 0 || left > 1)
		return false;
	atomic_fetch_add(&shared->refused, 1);
	errno = ENOMEM;
	return true;
}

void *malloc(size_t size)
{
	return refuses(size) ? NULL : __libc_malloc(size);
}

void *calloc(size_t count, size_t size)
{
	return size != CONTEXT && refuses(count * size) ? NULL : __libc_calloc(count, size);
}

void *realloc(void *old, size_t size)
{
	return refuses(size) ? NULL : __libc_realloc(old, size);
}

void *mmap(void *at, size_t size, int protection, int flags, int fd, off_t from)
{
	if (flags == (MAP_SHARED | MAP_ANONYMOUS) && refuses(size))
		return MAP_FAILED;
	return (void *)syscall(SYS_mmap, at, size, protection, flags, fd, from);
}
