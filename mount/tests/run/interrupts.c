/* interrupts WHAT ..: calls that a signal would interrupt, for noticed.py. */
#include <errno.h>
#include <fcntl.h>
#include <linux/aio_abi.h>
#include <poll.h>
#include <signal.h>
#include <stdatomic.h>
#include <stdio.h>
#include <stdlib.h>
#include <string.h>
#include <sys/epoll.h>
#include <sys/inotify.h>
#include <sys/mman.h>
#include <sys/sem.h>
#include <sys/sendfile.h>
#include <sys/socket.h>
#include <sys/syscall.h>
#include <sys/time.h>
#include <sys/uio.h>
#include <sys/un.h>
#include <sys/wait.h>
#include <time.h>
#include <unistd.h>

static int ends[2];
static int seconds; /* how long a call takes that no signal ends */
static atomic_int *ready; /* shared with the parent: the next thing that this process does is the call */

/* A set that waits for it. */
static int watched_end(void)
{
	struct epoll_event e = { .events = EPOLLIN };
	int set = epoll_create1(0);
	epoll_ctl(set, EPOLL_CTL_ADD, ends[0], &e);
	atomic_store(ready, 1);
	return set;
}

static long in_epoll(void)
{
	struct epoll_event e;
	return epoll_wait(watched_end(), &e, 1, 1000 * seconds);
}

static long in_epoll_pwait(void)
{
	struct epoll_event e;
	return syscall(SYS_epoll_pwait, watched_end(), &e, 1, 1000 * seconds, NULL, 8);
}

static long in_epoll_pwait2(void)
{
	struct epoll_event e;
	struct timespec most = { seconds, 0 };
	return syscall(SYS_epoll_pwait2, watched_end(), &e, 1, &most, NULL, 8);
}

static void set_timeout(int fd, int which)
{
	struct timeval most = { seconds, 0 };
	setsockopt(fd, SOL_SOCKET, which, &most, sizeof most);
}

static char byte;
static struct iovec one = { &byte, 1 };
static struct mmsghdr message = { .msg_hdr = { .msg_iov = &one, .msg_iovlen = 1 } };

/* A socket that has nothing to read. */
static void empty_socket(void)
{
	set_timeout(ends[0], SO_RCVTIMEO);
	atomic_store(ready, 1);
}

static long in_recv(void)
{
	return recv(ends[0], &byte, 1, 0);
}

static long in_read_of_socket(void)
{
	return read(ends[0], &byte, 1);
}

static long in_readv_of_socket(void)
{
	return readv(ends[0], &one, 1);
}

static long in_recvmsg(void)
{
	return recvmsg(ends[0], &message.msg_hdr, 0);
}

static long in_recvmmsg(void)
{
	return recvmmsg(ends[0], &message, 1, 0, NULL);
}

/* A socket that takes no more. */
static void fill_socket(void)
{
	static char bytes[1 << 20];
	set_timeout(ends[0], SO_SNDTIMEO);
	while (send(ends[0], bytes, sizeof bytes, MSG_DONTWAIT) > 0)
		;
	atomic_store(ready, 1);
}

static long in_send(void)
{
	return send(ends[0], &byte, 1, 0);
}

static long in_write_to_socket(void)
{
	return write(ends[0], &byte, 1);
}

static long in_writev_to_socket(void)
{
	return writev(ends[0], &one, 1);
}

static long in_sendmsg(void)
{
	return sendmsg(ends[0], &message.msg_hdr, 0);
}

static long in_sendmmsg(void)
{
	return sendmmsg(ends[0], &message, 1, 0);
}

static int listening(void)
{
	int fd = socket(AF_UNIX, SOCK_STREAM, 0);
	struct sockaddr own = { .sa_family = AF_UNIX };
	set_timeout(fd, SO_RCVTIMEO);
	bind(fd, &own, sizeof own.sa_family);
	listen(fd, 1);
	atomic_store(ready, 1);
	return fd;
}

static long in_accept(void)
{
	return accept(listening(), NULL, NULL);
}

static long in_accept4(void)
{
	return accept4(listening(), NULL, NULL, SOCK_CLOEXEC);
}

static void end_later(void)
{
	setitimer(ITIMER_REAL, &(struct itimerval){ .it_value = { seconds + 1, 0 } }, NULL);
}

static long in_semaphore(const struct timespec *most)
{
	struct sembuf take = { 0, -1, 0 };
	int set = semget(IPC_PRIVATE, 1, 0600);
	if (!most)
		end_later();
	atomic_store(ready, 1);
	long result = most ? semtimedop(set, &take, 1, most) : syscall(SYS_semop, set, &take, 1);
	int fault = errno;
	semctl(set, 0, IPC_RMID);
	errno = fault;
	return result;
}

static long in_semtimedop(void)
{
	return in_semaphore(&(struct timespec){ seconds, 0 });
}

static long in_semop(void)
{
	return in_semaphore(NULL);
}

static long in_sigtimedwait(void)
{
	sigset_t some;
	struct timespec most = { seconds, 0 };
	sigemptyset(&some);
	sigaddset(&some, SIGUSR2);
	sigprocmask(SIG_BLOCK, &some, NULL);
	atomic_store(ready, 1);
	return sigtimedwait(&some, NULL, &most);
}

static long in_events_of_files(long call)
{
	aio_context_t all = 0;
	struct io_event e;
	struct timespec most = { seconds, 0 };
	syscall(SYS_io_setup, 1, &all);
	atomic_store(ready, 1);
	return syscall(call, all, 1, 1, &e, &most, NULL);
}

static long in_getevents(void)
{
	return in_events_of_files(SYS_io_getevents);
}

static long in_pgetevents(void)
{
	return in_events_of_files(SYS_io_pgetevents);
}

static long in_inotify(void)
{
	char event[4096];
	int fd = inotify_init();
	inotify_add_watch(fd, "/", IN_MOVE_SELF);
	end_later();
	atomic_store(ready, 1);
	return read(fd, event, sizeof event);
}

/* A socket that takes no more connections. */
static long in_connect(void)
{
	struct sockaddr own = { .sa_family = AF_UNIX };
	struct sockaddr_un there;
	socklen_t size = sizeof there;
	int taken = socket(AF_UNIX, SOCK_STREAM, 0), fd;
	bind(taken, &own, sizeof own.sa_family);
	listen(taken, 0);
	getsockname(taken, (struct sockaddr *)&there, &size);
	do
		fd = socket(AF_UNIX, SOCK_STREAM | SOCK_NONBLOCK, 0);
	while (connect(fd, (struct sockaddr *)&there, size) == 0);
	fd = socket(AF_UNIX, SOCK_STREAM, 0);
	set_timeout(fd, SO_SNDTIMEO);
	atomic_store(ready, 1);
	return connect(fd, (struct sockaddr *)&there, size);
}

static long in_sendfile(void)
{
	int fd = open("/proc/self/exe", O_RDONLY);
	fill_socket();
	return sendfile(ends[0], fd, NULL, 1);
}

static long in_splice(void)
{
	int from[2];
	if (pipe(from) || write(from[1], "x", 1) != 1)
		return -1;
	fill_socket();
	return splice(from[0], NULL, ends[0], NULL, 1, 0);
}

static long in_poll(void)
{
	atomic_store(ready, 1);
	return poll(NULL, 0, 1000 * seconds);
}

static long in_nanosleep(void)
{
	struct timespec most = { seconds, 0 };
	atomic_store(ready, 1);
	return nanosleep(&most, NULL);
}

static const struct {
	const char *name;
	void (*before)(void);
	long (*call)(void);
	int fault; /* without a signal */
} calls[] = {
	{ "epoll_wait", NULL, in_epoll, 0 },
	{ "epoll_pwait", NULL, in_epoll_pwait, 0 },
	{ "epoll_pwait2", NULL, in_epoll_pwait2, 0 },
	{ "recv", empty_socket, in_recv, EAGAIN },
	{ "recvmsg", empty_socket, in_recvmsg, EAGAIN },
	{ "recvmmsg", empty_socket, in_recvmmsg, EAGAIN },
	{ "read", empty_socket, in_read_of_socket, EAGAIN },
	{ "readv", empty_socket, in_readv_of_socket, EAGAIN },
	{ "send", fill_socket, in_send, EAGAIN },
	{ "sendmsg", fill_socket, in_sendmsg, EAGAIN },
	{ "sendmmsg", fill_socket, in_sendmmsg, EAGAIN },
	{ "write", fill_socket, in_write_to_socket, EAGAIN },
	{ "writev", fill_socket, in_writev_to_socket, EAGAIN },
	{ "accept", NULL, in_accept, EAGAIN },
	{ "accept4", NULL, in_accept4, EAGAIN },
	{ "semtimedop", NULL, in_semtimedop, EAGAIN },
	{ "semop", NULL, in_semop, EINTR },
	{ "sigtimedwait", NULL, in_sigtimedwait, EAGAIN },
	{ "io_getevents", NULL, in_getevents, 0 },
	{ "io_pgetevents", NULL, in_pgetevents, 0 },
	{ "inotify", NULL, in_inotify, EINTR },
	{ "poll", NULL, in_poll, 0 },
	{ "nanosleep", NULL, in_nanosleep, 0 },
	{ "connect", NULL, in_connect, EAGAIN },
	{ "sendfile", NULL, in_sendfile, EAGAIN },
	{ "splice", NULL, in_splice, EAGAIN },
};

static volatile sig_atomic_t handled_one;

static void on_alarm(int unused)
{
	(void)unused;
	handled_one = 1;
}

/* Waits until the child sleeps in its call, or has ended: on a busy machine it may be over before it was seen. */
static void until_it_sleeps(pid_t pid)
{
	char path[40], text[256];
	snprintf(path, sizeof path, "/proc/%d/stat", pid);
	for (;;) {
		usleep(10000);
		int fd = open(path, O_RDONLY);
		ssize_t n = fd < 0 ? 0 : read(fd, text, sizeof text - 1);
		text[n > 0 ? n : 0] = 0;
		close(fd);
		const char *end = strrchr(text, ')');
		if (n <= 0 || (atomic_load(ready) && end && end[1] && (end[2] == 'S' || end[2] == 'Z')))
			return;
	}
}

/* What a call has come to: 0, its errno, or NO_HANDLER for an EINTR though no handler ran. */
enum { NO_HANDLER = 200 };

static int fault_of(long result)
{
	return result >= 0 ? 0 : errno == EINTR && !handled_one ? NO_HANDLER : errno;
}

/* Each call, in a process that gets this signal while it waits. Prints the calls that end otherwise than without it. */
static int signals(int which, int handled)
{
	enum { CALLS = sizeof calls / sizeof *calls };
	pid_t all[CALLS];
	struct sigaction act = { .sa_handler = on_alarm };
	seconds = handled ? 600 : 3;
	ready = mmap(NULL, 4096, PROT_READ | PROT_WRITE, MAP_SHARED | MAP_ANONYMOUS, -1, 0);
	for (size_t i = 0; i < CALLS; i++) {
		atomic_store(ready, 0);
		if ((all[i] = fork()) == 0) {
			socketpair(AF_UNIX, SOCK_STREAM, 0, ends);
			sigaction(SIGALRM, &act, NULL);
			if (handled)
				sigaction(which, &act, NULL);
			if (calls[i].before)
				calls[i].before();
			errno = 0;
			_exit(fault_of(calls[i].call()));
		}
		until_it_sleeps(all[i]);
		kill(all[i], which);
	}
	for (size_t i = 0; i < CALLS; i++) {
		int status, wanted = handled ? EINTR : calls[i].fault;
		waitpid(all[i], &status, 0);
		if (!WIFEXITED(status) || WEXITSTATUS(status) != wanted)
			printf("%s ", calls[i].name);
	}
	return 0;
}

/* A stop and SIGCONT end an epoll_wait with EINTR, as in the kernel. */
static int stops(void)
{
	int status;
	ready = mmap(NULL, 4096, PROT_READ | PROT_WRITE, MAP_SHARED | MAP_ANONYMOUS, -1, 0);
	pid_t pid = fork();
	if (pid == 0) {
		struct epoll_event e;
		int set = epoll_create1(0);
		atomic_store(ready, 1);
		int first = epoll_wait(set, &e, 1, 600000) < 0 ? errno : 0;
		atomic_store(ready, 2);
		_exit((first == EINTR) | (epoll_wait(set, &e, 1, 3000) == 0) << 1);
	}
	until_it_sleeps(pid);
	kill(pid, SIGSTOP);
	waitpid(pid, &status, WUNTRACED);
	kill(pid, SIGCONT);
	while (atomic_load(ready) != 2)
		usleep(1000);
	until_it_sleeps(pid);
	kill(pid, SIGWINCH);
	waitpid(pid, &status, 0);
	printf("%d %d\n", WEXITSTATUS(status) & 1, WEXITSTATUS(status) >> 1);
	return 0;
}

int main(int argc, char **argv)
{
	const char *what = argc > 1 ? argv[1] : "";
	if (strcmp(what, "ignored") == 0)
		signal(SIGUSR1, SIG_IGN);
	if (argc > 2 && (strcmp(what, "ignored") == 0 || strcmp(what, "handled") == 0))
		return signals(atoi(argv[2]), what[0] == 'h');
	if (strcmp(what, "stops") == 0)
		return stops();
	return 2;
}
