#include "helper/user_notification.h"
#include "common/cleanup.h"
#include "common/message.h"
#include "helper/mount_contexts.h"
#include "helper/mount_root.h"
#include "helper/mounting.h"
#include "helper/path_lookup.h"
#include "helper/procfiles.h"
#include "helper/program_memory.h"
#include "helper/stand_in.h"
#include <fcntl.h>
#include <limits.h>
#include <linux/capability.h>
#include <linux/magic.h>
#include <linux/mount.h>
#include <linux/openat2.h>
#include <poll.h>
#include <stdatomic.h>
#include <string.h>
#include <sys/ioctl.h>
#include <sys/ptrace.h>
#include <sys/syscall.h>
#include <sys/vfs.h>

#ifndef CGROUP2_SUPER_MAGIC
#define CGROUP2_SUPER_MAGIC 0x63677270
#endif

#ifndef SECCOMP_USER_NOTIF_FD_SYNC_WAKE_UP
#define SECCOMP_USER_NOTIF_FD_SYNC_WAKE_UP 1UL
#define SECCOMP_IOCTL_NOTIF_SET_FLAGS SECCOMP_IOW(4, __u64)
#endif

/* It fails before Linux 6.6, where any processor may be used. It is set and taken back around the
   wait, so it concerns only that wake. */
static void wake_here(int listener, bool here)
{
	(void)ioctl(listener, SECCOMP_IOCTL_NOTIF_SET_FLAGS, here ? SECCOMP_USER_NOTIF_FD_SYNC_WAKE_UP : 0UL);
}

/* Who waits for a call wakes up on the processor of the caller, which waits from then on, so no idle one has to be woken. The
   caller wakes up on whichever is idle: on this one it could wait for another program, while others have nothing to do. */
bool user_notification_next(int listener, struct seccomp_notif *call)
{
	for (;;) {
		/* The kernel refuses to receive into memory that is not zero. */
		memset(call, 0, sizeof *call);
		wake_here(listener, true);
		bool came = ioctl(listener, SECCOMP_IOCTL_NOTIF_RECV, call) == 0;
		wake_here(listener, false);
		if (came)
			return true;
		/* its caller was killed, or the program has ended; before Linux 6.11 the end is not seen here */
		struct pollfd from = { .fd = listener, .events = POLLIN };
		if (poll(&from, 1, 0) > 0 && !(from.revents & POLLIN))
			return false;
	}
}

/* CONTINUE lets the kernel make the call as if nobody had looked. Else the call returns -error, or
   0. */
static void respond(int listener, const struct seccomp_notif *call, int error, unsigned flags)
{
	struct seccomp_notif_resp response = { .id = call->id, .error = -error, .flags = flags };
	ioctl(listener, SECCOMP_IOCTL_NOTIF_SEND, &response); /* it fails if the caller was killed */
}

static void let_through(int listener, const struct seccomp_notif *call)
{
	respond(listener, call, 0, SECCOMP_USER_NOTIF_FLAG_CONTINUE);
}

/* The call returns a copy of a descriptor. If the caller can't have another, the call fails: the
   kernel may find one when it looks, and the caller would see what is the machine's.
   ADDFD_FLAG_SEND: the descriptor appears and the call returns in one step, so no descriptor is
   left over if the caller is killed in between. */
static void respond_with(int listener, const struct seccomp_notif *call, int fd, int flags)
{
	struct seccomp_notif_addfd add = { .id = call->id,
		.flags = SECCOMP_ADDFD_FLAG_SEND,
		.srcfd = (__u32)fd,
		.newfd_flags = (__u32)flags };
	if (ioctl(listener, SECCOMP_IOCTL_NOTIF_ADDFD, &add) < 0)
		respond(listener, call, errno, 0);
}

/* If memory did not suffice to know what the call asks for, it fails. To let it through could show
   the machine's own. errno is that of the look-up which failed. */
static bool answer_no_memory(int listener, const struct seccomp_notif *call)
{
	if (errno != ENOMEM)
		return false;
	respond(listener, call, ENOMEM, 0);
	return true;
}

/* ---------------------------------------------------------------- statfs */

/* The caller keeps its number until the call ends. Its memory is opened before that is checked, so the write reaches no
   other process. That of a process that is not dumpable can't be opened: if it was killed since the check, and its number were another
   one's already, that one would be written to. The write may block, and then only this call waits. */
static bool write_answer(int listener, const struct seccomp_notif *call, unsigned long at, const void *bytes,
	size_t size)
{
	char path[40];
	snprintf(path, sizeof path, "%d/mem", (int)call->pid);
	cleanup_fd int memory = open(path, O_RDWR | O_CLOEXEC);
	/* EACCES: the caller is not dumpable. */
	bool is_closed = memory < 0 && errno == EACCES;
	if ((memory < 0 && !is_closed) || ioctl(listener, SECCOMP_IOCTL_NOTIF_ID_VALID, &call->id))
		return false;
	return is_closed ? program_memory_write((pid_t)call->pid, at, bytes, size)
					 : pwrite(memory, bytes, size, (off_t)at) == (ssize_t)size;
}

/* True if the mount was asked for and the answer has been given. */
static bool answer_statfs(int listener, const struct seccomp_notif *call)
{
	char path[PATH_MAX];
	struct statfs st;
	pid_t thread = (pid_t)call->pid;
	/* A failed look-up without ENOMEM lets the kernel answer: it knows the errno. */
	bool by_path = call->data.nr == __NR_statfs;
	if (by_path && !program_memory_text(thread, call->data.args[0], path, sizeof path))
		return false;
	cleanup_fd int file = by_path ? path_lookup_find(thread, AT_FDCWD, path, true, 0, NULL)
								  : path_lookup_of_descriptor(thread, (int)call->data.args[0]);
	if (file < 0)
		return answer_no_memory(listener, call);
	if (!mount_root_has(file))
		return false;
	bool is_text = mount_root_has_file(file, ".makhloeum.");
	if (is_text ? statfs(".", &st) : fstatfs(file, &st))
		return answer_no_memory(listener, call);
	if (!is_text)
		st.f_type = CGROUP2_SUPER_MAGIC; /* the mount's own number is that of FUSE */
	respond(listener, call, write_answer(listener, call, call->data.args[1], &st, sizeof st) ? 0 : EFAULT, 0);
	return true;
}

/* ---------------------------------------------------------------- an open */

/* What the call asks for, in this process's memory. */
struct open_call {
	int directory, flags;
	uint64_t resolve;
	char path[PATH_MAX];
};

/* The flags that openat2 knows. O_LARGEFILE is 0 in the C library, as every file is one. */
static const uint64_t known_flags = O_ACCMODE | O_CREAT | O_EXCL | O_NOCTTY | O_TRUNC | O_APPEND | O_NONBLOCK | O_SYNC |
	O_ASYNC | O_DIRECT | O_DIRECTORY | O_NOFOLLOW | O_NOATIME | O_CLOEXEC | O_PATH | O_TMPFILE | 0100000;
static const uint64_t known_rules = RESOLVE_NO_XDEV | RESOLVE_NO_MAGICLINKS | RESOLVE_NO_SYMLINKS | RESOLVE_BENEATH |
	RESOLVE_IN_ROOT | RESOLVE_CACHED;

/* The argument of an openat2 that the kernel would not refuse at once. A longer one has zeros at its end. */
static bool read_how(pid_t thread, unsigned long at, size_t size, struct open_how *how)
{
	char bytes[4096];
	if (size < sizeof *how || size > sizeof bytes || !program_memory_read(thread, at, bytes, size))
		return false;
	for (size_t i = sizeof *how; i < size; i++)
		if (bytes[i])
			return false;
	memcpy(how, bytes, sizeof *how);
	bool makes = how->flags & O_CREAT; /* as O_TMPFILE does: the kernel answers every open with that (read_open) */
	if (how->flags & ~known_flags || how->mode & ~(makes ? 07777ULL : 0ULL) || how->resolve & ~known_rules)
		return false;
	/* The kernel's own rule: EINVAL. This returns false, and the kernel says so. */
	return (how->resolve & (RESOLVE_BENEATH | RESOLVE_IN_ROOT)) != (RESOLVE_BENEATH | RESOLVE_IN_ROOT);
}

/* The supervisor's own copy of the arguments. The program can change its memory afterwards; then the kernel opens another
   file than the one that was checked, and a text of /proc is the machine's. */
static bool read_open(const struct seccomp_notif *call, struct open_call *out)
{
	const __u64 *a = call->data.args;
	struct open_how how = { 0 };
	pid_t thread = (pid_t)call->pid;
	unsigned long at = a[1];
	out->directory = (int)a[0];
	out->flags = (int)a[2];
	out->resolve = 0;
#ifdef __NR_open
	if (call->data.nr == __NR_open) {
		out->directory = AT_FDCWD;
		out->flags = (int)a[1];
		at = a[0];
	}
#endif
	if (call->data.nr == __NR_openat2) {
		if (!read_how(thread, a[2], a[3], &how))
			return false;
		out->flags = (int)how.flags;
		out->resolve = how.resolve;
	}
	/* O_TMPFILE is O_DIRECTORY and a bit that the kernel refuses alone */
	if (out->flags & (O_PATH | O_WRONLY | O_TMPFILE) || (out->flags & O_CREAT && out->flags & O_EXCL))
		return false;
	return program_memory_text(thread, at, out->path, sizeof out->path);
}

/* Most opens end at the first look: the path leads nowhere near /proc, and the kernel opens the
   file itself. */
static bool answer_open(int listener, const struct seccomp_notif *call)
{
	struct open_call asked;
	pid_t thread = (pid_t)call->pid;
	if (!read_open(call, &asked))
		return false;
	bool follows = !(asked.flags & O_NOFOLLOW);
	if (asked.resolve == 0 && path_lookup_stays_outside_proc(thread, asked.directory, asked.path, follows))
		return false;
	cleanup_fd int from = -1;
	cleanup_fd int file = path_lookup_find(thread, asked.directory, asked.path, follows, asked.resolve, &from);
	if (file < 0)
		return answer_no_memory(listener, call);
	/* -1 for all other files: the kernel opens them, as the program asked. */
	cleanup_fd int text = procfiles_text(thread, file, from);
	if (text == -1)
		return false;
	if (asked.resolve & RESOLVE_CACHED) { /* it is not known without a look-up */
		respond(listener, call, EAGAIN, 0);
		return true;
	}
	if (text < 0) {
		respond(listener, call, -text, 0);
		return true;
	}
	/* these files can only be read; a truncation, which has no effect, is a superuser's */
	if (asked.flags & O_RDWR || (asked.flags & O_TRUNC && !stand_in_may(thread, CAP_DAC_OVERRIDE))) {
		respond(listener, call, EACCES, 0);
		return true;
	}
	if (asked.flags & O_DIRECT) { /* nor do they allow that */
		respond(listener, call, EINVAL, 0);
		return true;
	}
	fcntl(text, F_SETFL,
		asked.flags & (O_APPEND | O_NONBLOCK | O_NOATIME)); /* it cannot fail: the file is of this user */
	respond_with(listener, call, text, asked.flags & O_CLOEXEC);
	return true;
}

static bool answer_mount(int listener, const struct seccomp_notif *call)
{
	int error;
	bool answered = mounting_takes(listener, call, &error);
	if (answered)
		respond(listener, call, error, 0);
	return answered;
}

static void respond_with_or_fail(int listener, const struct seccomp_notif *call, int fd, bool closes)
{
	if (fd >= 0)
		respond_with(listener, call, fd, closes ? O_CLOEXEC : 0);
	else
		respond(listener, call, -fd, 0);
}

static bool answer_context(int listener, const struct seccomp_notif *call)
{
	cleanup_fd int opened = -1;
	int error;
	switch (call->data.nr) {
	case __NR_fsopen:
		if (!mounting_opens(listener, call, &opened))
			return false;
		respond_with_or_fail(listener, call, opened, call->data.args[1] & FSOPEN_CLOEXEC);
		return true;
	case __NR_fsmount:
		if (!mount_contexts_mounts(call, &opened))
			return false;
		respond_with_or_fail(listener, call, opened, call->data.args[1] & FSMOUNT_CLOEXEC);
		return true;
	case __NR_fspick:
		if (!mount_contexts_picks(call, &opened))
			return false;
		respond_with_or_fail(listener, call, opened, call->data.args[2] & FSPICK_CLOEXEC);
		return true;
	default:
		if (!(call->data.nr == __NR_fsconfig ? mount_contexts_configures : mount_contexts_moves)(call, &error))
			return false;
		respond(listener, call, error, 0);
		return true;
	}
}

/* A process has one tracer, and here that is the supervisor. The kernel refuses these calls too, but does not say why. */
static bool answer_trace(int listener, const struct seccomp_notif *call)
{
	static atomic_flag said = ATOMIC_FLAG_INIT;
	__u64 request = call->data.args[0];
	if (request != PTRACE_TRACEME && request != PTRACE_ATTACH && request != PTRACE_SEIZE)
		return false;
	/* Once in a run: a program may try it very often. */
	if (!atomic_flag_test_and_set(&said))
		say("run traces every process itself: strace, gdb and other tracers do not work inside it");
	respond(listener, call, EPERM, 0);
	return true;
}

/* Whether the call changes the limits of a process of makhloeum: without descriptors such a process could not look at an
   open. */
static bool limits_us(const struct seccomp_notif *call)
{
	return call->data.nr == __NR_prlimit64 && call->data.args[2] &&
		path_lookup_is_own((pid_t)call->pid, (pid_t)call->data.args[0]);
}

static bool answer_limit(int listener, const struct seccomp_notif *call)
{
	if (!limits_us(call))
		return false;
	respond(listener, call, EPERM, 0);
	return true;
}

static bool answer(int listener, const struct seccomp_notif *call)
{
	switch (call->data.nr) {
	case __NR_statfs:
	case __NR_fstatfs:
		return answer_statfs(listener, call);
	case __NR_mount:
		return answer_mount(listener, call);
	case __NR_fsopen:
	case __NR_fsconfig:
	case __NR_fsmount:
	case __NR_fspick:
	case __NR_move_mount:
		return answer_context(listener, call);
	case __NR_ptrace:
		return answer_trace(listener, call);
	case __NR_prlimit64:
		return answer_limit(listener, call);
	default:
		return answer_open(listener, call);
	}
}

void user_notification_answer(int listener, const struct seccomp_notif *call)
{
	if (!answer(listener, call))
		let_through(listener, call);
}

/* It may not wait, so nothing of the program is looked at. prlimit is refused, since the process
   that it names may be one of makhloeum. */
void user_notification_let_through(int listener, const struct seccomp_notif *call)
{
	if (call->data.nr == __NR_prlimit64)
		respond(listener, call, EPERM, 0);
	else
		let_through(listener, call);
}
