/* Small libraries for LD_PRELOAD, in each of which one call answers in another way. A macro says which one is made. */
#include <dlfcn.h>
#include <errno.h>
#include <fcntl.h>
#include <linux/fuse.h>
#include <linux/seccomp.h>
#include <pthread.h>
#include <signal.h>
#include <stdarg.h>
#include <stdatomic.h>
#include <stdbool.h>
#include <stdio.h>
#include <stdlib.h>
#include <string.h>
#include <sys/ioctl.h>
#include <sys/syscall.h>
#include <sys/uio.h>
#include <time.h>
#include <unistd.h>

#if defined ABORTED || defined BROKEN

/* A read that would fail with ENODEV, as at an unmount, has another errno: ECONNABORTED, as the kernel has it only if a request is
   pending at that moment; or EIO, after which libfuse ends by a fault. */
#if defined ABORTED
enum { INSTEAD = ECONNABORTED };
#else
enum { INSTEAD = EIO };
#endif

ssize_t read(int fd, void *bytes, size_t size)
{
	static ssize_t (*next)(int, void *, size_t);
	if (!next)
		*(void **)&next = dlsym(RTLD_NEXT, "read");
	ssize_t n = next(fd, bytes, size);
	if (n < 0 && errno == ENODEV)
		errno = INSTEAD;
	return n;
}

#elif defined GONE

/* Whoever made a call that the helper looks at is gone by now, says the kernel. */
int ioctl(int fd, unsigned long request, ...)
{
	va_list more;
	va_start(more, request);
	void *argument = va_arg(more, void *);
	va_end(more);
	if (request == SECCOMP_IOCTL_NOTIF_ID_VALID) {
		errno = ENOENT;
		return -1;
	}
	return (int)syscall(SYS_ioctl, fd, request, argument);
}

#elif defined NO_SIGNALS

/* No handler of a signal can be set. */
int sigaction(int number, const struct sigaction *wanted, struct sigaction *was)
{
	static int (*next)(int, const struct sigaction *, struct sigaction *);
	if (!next)
		*(void **)&next = dlsym(RTLD_NEXT, "sigaction");
	if (wanted && wanted->sa_handler != SIG_IGN && wanted->sa_handler != SIG_DFL) {
		errno = EINVAL;
		return -1;
	}
	return next(number, wanted, was);
}

#elif defined NO_THREADS

/* A process gets one thread beside its first one; with the variable NO_THREAD none. */
int pthread_create(pthread_t *out, const pthread_attr_t *how, void *(*call)(void *), void *with)
{
	static int (*next)(pthread_t *, const pthread_attr_t *, void *(*)(void *), void *);
	static atomic_bool has_one;
	if (getenv("NO_THREAD") || atomic_exchange(&has_one, true))
		return EAGAIN;
	*(void **)&next = dlsym(RTLD_NEXT, "pthread_create");
	return next(out, how, call, with);
}

#elif defined NOT_FOUND

/* As long as the folder NOT_FOUND has a folder `root`, memory does not suffice to open N/root, where /proc is the working directory, or what
   is below it; likewise for other names. */
static int open_unless_short(const char *path, int flags, int mode)
{
	const char *folder = getenv("NOT_FOUND"), *below = path + strspn(path, "0123456789");
	char name[256];
	if (folder && below > path && *below == '/') {
		snprintf(name, sizeof name, "%s%.*s", folder, (int)strcspn(below + 1, "/") + 1, below);
		if (syscall(SYS_faccessat, AT_FDCWD, name, F_OK) == 0) {
			errno = ENOMEM;
			return -1;
		}
	}
	return (int)syscall(SYS_openat, AT_FDCWD, path, flags, mode);
}

int open(const char *path, int flags, ...)
{
	va_list more;
	va_start(more, flags);
	int mode = flags & (O_CREAT | O_TMPFILE) ? va_arg(more, int) : 0;
	va_end(more);
	return open_unless_short(path, flags, mode);
}

#elif defined PATIENT

/* The time of day is an hour later, so what makhloeum waits for until a time of day it waits for an hour longer. */
int clock_gettime(clockid_t clock, struct timespec *now)
{
	int result = (int)syscall(SYS_clock_gettime, clock, now);
	if (clock == CLOCK_REALTIME)
		now->tv_sec += 3600;
	return result;
}

#elif defined SLOW_ANSWER

/* Whoever has written an answer without an error is slow afterwards, so that others are refused before it goes on. */
ssize_t writev(int fd, const struct iovec *parts, int count)
{
	const struct fuse_out_header *head = parts->iov_base;
	long n = syscall(SYS_writev, fd, parts, count);
	int fault = errno;
	if (head->error == 0)
		usleep(500000);
	errno = fault;
	return n;
}

#elif defined SLOW_KILL

/* Whoever continues a process is slow afterwards, so that it can be stopped again before anything else is done. */
int kill(pid_t pid, int signal)
{
	long result = syscall(SYS_kill, pid, signal);
	if (signal == SIGCONT)
		usleep(20000);
	return (int)result;
}

#elif defined SLOW_UNLOCK

/* After each release of a lock the thread lets others go first, so that what needed the lock longer shows. */
int pthread_mutex_unlock(pthread_mutex_t *lock)
{
	static int (*next)(pthread_mutex_t *);
	if (!next)
		*(void **)&next = dlsym(RTLD_NEXT, "pthread_mutex_unlock");
	int result = next(lock);
	usleep(300);
	return result;
}

#else
#error "it needs the name of a library"
#endif
