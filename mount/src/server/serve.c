#include "server/serve.h"
#include "common/cleanup.h"
#include "common/message.h"
#include "common/proc_status.h"
#include "engine/engine.h"
#include "processes/host_processes.h"
#include "server/group_state.h"
#include "server/mount_tables.h"
#include "server/operations.h"
#include "server/watch.h"
#include "values/controllers.h"
#include "values/machine.h"
#include <errno.h>
#include <fcntl.h>
#include <fuse3/fuse_log.h>
#include <fuse3/fuse_lowlevel.h>
#include <limits.h>
#include <linux/fuse.h>
#include <signal.h>
#include <stdatomic.h>
#include <stdio.h>
#include <stdlib.h>
#include <string.h>
#include <sys/uio.h>
#include <sys/wait.h>
#include <time.h>
#include <unistd.h>

enum { REFUSED = 2 };

/* They belong to the engine once it has begun. */
static struct trace_file trace, answers;

/* Nothing is changed before everything was found right. */
static bool open_trace_files(const struct wishes *wishes)
{
	bool right = trace_file_open(&trace, wishes->trace);
	right = trace_file_open(&answers, right ? wishes->answers : NULL) && right;
	if (right && trace_file_is_same(&trace, &answers)) {
		say("--trace and --answers are the same file");
		right = false;
	}
	if (right && trace_file_begin(&trace) && trace_file_begin(&answers))
		return true;
	trace_file_abandon(&trace);
	trace_file_abandon(&answers);
	return false;
}

/* What can be refused without a mount is asked for here. */
bool serve_prepare(const struct wishes *wishes)
{
	if (wishes->keep && !controllers_keep(wishes->keep)) {
		say("--keep takes memory, cpu, io and cpuset, with commas between");
		return false;
	}
	if (wishes->adopt && !proc_status_is_ours()) {
		say("/proc is that of another PID namespace");
		return false;
	}
	/* Before the mount: afterwards the server looks up no path. */
	if (wishes->keep && !machine_read()) {
		say("out of memory");
		return false;
	}
	if (!open_trace_files(wishes))
		return false;
	if (!engine_start(&trace, &answers, wishes->control)) {
		say("out of memory");
		return false;
	}
	if (wishes->extra || wishes->keep)
		files_use_extra();
	if (wishes->adopt && !host_processes_adopt_all()) {
		say("processes cannot be watched here: %s", strerror(errno));
		return false;
	}
	look = (struct look){ .history = wishes->control, .uid = getuid(), .gid = getgid() };
	clock_gettime(CLOCK_REALTIME, &look.born);
	/* A write to a closed pipe, or beyond a limit of size, returns an errno instead of ending the
	   server. */
	signal(SIGPIPE, SIG_IGN);
	signal(SIGXFSZ, SIG_IGN);
	return true;
}

/* nosuid, nodev and noexec, as system managers mount the kernel's own. */
static struct fuse_session *make_session(void)
{
	char *words[] = { "makhloeum", "-o", "fsname=makhloeum,subtype=cgroup2,nosuid,nodev,noexec", NULL };
	struct fuse_args args = FUSE_ARGS_INIT(3, words);
	struct fuse_session *session = fuse_session_new(&args, &operations, sizeof operations, NULL);
	fuse_opt_free_args(&args);
	return session;
}

/* Until its first answer nobody can use the mount. If that is an errno, or cannot be written, nobody ever can. */
static atomic_bool has_begun;
static void (*when_ready)(void);

static void begin(void)
{
	atomic_store(&has_begun, true);
	when_ready();
}

/* A read from an unmounted connection fails with ENODEV, or with ECONNABORTED if a request was still pending. At ENODEV
   libfuse ends its loop quietly; at any other errno it prints a message and returns an error. */
#if FUSE_VERSION >= FUSE_MAKE_VERSION(3, 14)
static ssize_t read_request(int from, void *request, size_t size, void *unused)
{
	(void)unused;
	ssize_t n = read(from, request, size);
	if (n < 0 && errno == ECONNABORTED)
		errno = ENODEV;
	return n;
}

/* For the hook alone, which gets no session. */
static struct fuse_session *own_session;
static int first_fault;

static ssize_t write_reply(int to, struct iovec *reply, int parts, void *unused)
{
	/* Nobody sends another request before the first one was answered. From then on other threads answer, also before this one
	   goes on behind the call of writev. */
	static atomic_bool has_answered;
	const struct fuse_out_header *head = reply->iov_base;
	bool is_first = !atomic_load(&has_answered) && !atomic_exchange(&has_answered, true);
	(void)unused;
	ssize_t n = writev(to, reply, parts);
	int fault = n < 0 ? errno : -head->error;
	if (is_first && fault == 0)
		begin();
	else if (is_first) {
		first_fault = fault;
		fuse_session_exit(own_session);
	}
	return n;
}

static bool use_own_io(struct fuse_session *session)
{
	own_session = session;
	static const struct fuse_custom_io io = { .read = read_request, .writev = write_reply };
	return fuse_session_custom_io(session, &io, fuse_session_fd(session)) == 0;
}
#else
/* There is no such hook in older libraries: the message may still be printed, but the status is the same. */
static int first_fault;

static bool use_own_io(struct fuse_session *session)
{
	begin();
	return session != NULL;
}
#endif

/* A run has one thread for requests: each thread leaves the program less of RLIMIT_NPROC, and operations wait for one lock and never
   for the program. A mount has as many as there are requests at a time, and keeps them. (Without a configuration, libfuse 3.14 leaks
   its own.) */
/* It returns once the mount was unmounted, or after a signal. */
static int answer_requests(struct fuse_session *session)
{
	struct fuse_loop_config config = { .max_idle_threads = 10 };
	return look.marked ? fuse_session_loop(session) : fuse_session_loop_mt(session, &config);
}

/* If no more threads can be made, libfuse says so for each that it wants, and continues with those that it has. Why it cannot begin,
   `serve` says. */
static void say_for_fuse(enum fuse_log_level level, const char *format, va_list words)
{
	(void)level;
	if (!atomic_load(&has_begun) || strstr(format, "error creating thread"))
		return;
	vfprintf(stderr, format, words);
}

/* Answers until it is unmounted, or cannot begin to. */
static int answer(struct fuse_session *session)
{
	fuse_set_log_func(say_for_fuse);
	errno = EAGAIN; /* libfuse does not say why it has no thread */
	if (!use_own_io(session) || fuse_set_signal_handlers(session))
		return -EIO;
	int ended = answer_requests(session);
	fuse_remove_signal_handlers(session);
	return ended;
}

/* Its owner is the user as whom this process serves: under `run` that of the program's namespace. */
static bool make_root(void)
{
	engine_lock();
	bool made = group_state_make("/") != NULL;
	engine_unlock();
	return made;
}

/* The calling thread serves, and returns at the end of the mount. */
int serve(const char *where, void (*ready)(void))
{
	if (!make_root()) {
		say("out of memory");
		return REFUSED;
	}
	struct fuse_session *session = make_session();
	if (!session || fuse_session_mount(session, where)) {
		if (session)
			fuse_session_destroy(session);
		say("no file system can be mounted on %s: /dev/fuse, fusermount3 or the directory does not allow it", where);
		return REFUSED;
	}
	/* A run's companion has the root of the mount already. */
	if (!look.marked)
		watch_mounted(where);
	when_ready = ready;
	int ended = answer(session), fault = errno;
	mount_tables_end();
	fuse_session_unmount(session);
	fuse_session_destroy(session);
	engine_end();
	/* A number above 0 is that of a signal, all of which are an end as wanted; or ENOMEM, which is that of no signal handled here. */
	bool failed = first_fault || (ended < 0 && ended != -ECONNABORTED) || ended == ENOMEM;
	if (!failed || atomic_load(&has_begun))
		return failed;
	say("the file system cannot be served: %s", strerror(first_fault ? first_fault : fault));
	return REFUSED;
}

/* ---------------------------------------------------------------- makhloeum mount */

/* Closed once the mount is in place, or by the end of this process. */
static int to_starter = -1; /* a pipe to the process that waits until the mount is in place */

static void tell_starter(void)
{
	if (to_starter < 0)
		return;
	char status = 0;
	if (write(to_starter, &status, 1) < 0) {
		/* it was unmounted */
	}
	close(to_starter);
	to_starter = -1;
	int null = open("/dev/null", O_RDWR);
	for (int fd = 0; fd < 3; fd++)
		if (null < 0 || dup2(null, fd) < 0)
			close(fd); /* who waits for its end must not wait for this process */
	if (null > 2)
		close(null);
}

/* Who waits for the end of one, or for a lock on one, must not wait for this process either. Those of makhloeum itself end with an
   execve, and so differ. False without memory; without /proc they stay open. */
static bool close_inherited(void)
{
	struct dirent *entry;
	cleanup_directory DIR *all = opendir("/proc/self/fd");
	bool has_memory = all || errno != ENOMEM;
	while (all && (entry = readdir(all))) {
		int fd = (int)strtol(entry->d_name, NULL, 10); /* 0 for the two dots */
		if (fd > STDERR_FILENO && (fcntl(fd, F_GETFD) & FD_CLOEXEC) == 0)
			close(fd);
	}
	return has_memory;
}

/* The starter's part: it ends once the mount is in place, or with the status of the process that failed. */
/* The caller's shell goes on only once the mount is in place, or learns that it is not. */
static int wait_for(pid_t server, int from)
{
	char status;
	int ended = 0;
	if (read(from, &status, 1) == 1) /* else the server has ended, and its end of the pipe with it */
		return 0;
	waitpid(server, &ended, 0);
	if (WIFEXITED(ended) && WEXITSTATUS(ended) == REFUSED)
		return REFUSED; /* it has said why */
	say("the server of the mount has ended before the mount was in place");
	return 1;
}

/* A caller's blocked signals would keep a server that was sent one from ending. */
static void unblock_signals(void)
{
	sigset_t none;
	/* neither can fail */
	sigemptyset(&none);
	sigprocmask(SIG_SETMASK, &none, NULL);
}

/* The path is made absolute first: the server works in another directory. */
int mount_directory(const char *directory, const struct wishes *wishes)
{
	char whole[PATH_MAX];
	struct stat st;
	int ends[2] = { -1, -1 };
	unblock_signals();
	signal(SIGCHLD, SIG_DFL); /* a caller that ignores it would keep its status from who waits for a child */
	if (!realpath(directory, whole) || stat(whole, &st)) {
		say("%s: %s", directory, strerror(errno));
		return REFUSED;
	}
	if (!S_ISDIR(st.st_mode)) {
		say("%s is not a directory", directory);
		return REFUSED;
	}
	if (access("/dev/fuse", R_OK | W_OK)) {
		say("this machine does not allow FUSE: /dev/fuse: %s", strerror(errno));
		return REFUSED;
	}
	if (!wishes->foreground) {
		pid_t server = pipe2(ends, O_CLOEXEC) ? -1 : fork();
		if (server < 0) {
			say("a process cannot be started: %s", strerror(errno));
			return REFUSED;
		}
		if (server > 0) {
			close(ends[1]);
			return wait_for(server, ends[0]);
		}
		close(ends[0]);
		to_starter = ends[1];
		setsid(); /* it fails only for the leader of a group, which a child is not */
	}
	if (!serve_prepare(wishes))
		return REFUSED;
	/* only now: the path of a trace may name one */
	if (!wishes->foreground && !close_inherited()) {
		say("out of memory");
		return REFUSED;
	}
	if (!watch_begin(whole, -1)) {
		say("a process cannot be started: %s", strerror(errno));
		return REFUSED;
	}
	/* --adopt reads /proc by relative paths. The server must not keep the caller's directory in
	   use. */
	if (chdir("/proc") && chdir("/")) {
		say("/ cannot be entered: %s", strerror(errno));
		return REFUSED;
	}
	return serve(whole, tell_starter);
}
