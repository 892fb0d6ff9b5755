#include "supervisor/filter.h"
#include <errno.h>
#include <fcntl.h>
#include <limits.h>
#include <linux/audit.h>
#include <linux/filter.h>
#include <linux/seccomp.h>
#include <sched.h>
#include <stddef.h>
#include <sys/mount.h>
#include <sys/prctl.h>
#include <sys/syscall.h>
#include <sys/wait.h>
#include <unistd.h>

#if defined(__x86_64__)
#define NATIVE AUDIT_ARCH_X86_64
#elif defined(__aarch64__)
#define NATIVE AUDIT_ARCH_AARCH64
#else
#error "makhloeum run knows x86_64 and aarch64"
#endif

#ifndef SECCOMP_FILTER_FLAG_WAIT_KILLABLE_RECV
#define SECCOMP_FILTER_FLAG_WAIT_KILLABLE_RECV (1UL << 5)
#endif

#ifndef __NR_statmount /* Linux 6.8; they show the machine's mounts, and programs that do not find them read mountinfo */
#define __NR_statmount 457
#define __NR_listmount 458
#endif

/* The bit that marks system call numbers of x32: other numbers for the same calls. */
enum { X32 = 0x40000000 };

/* Each of these is one instruction or a few. The number is how many of the following are skipped. */
#define LOAD(field) BPF_STMT(BPF_LD | BPF_W | BPF_ABS, offsetof(struct seccomp_data, field))
#define ANSWER(what) BPF_STMT(BPF_RET | BPF_K, what)
#define FAIL(error) ANSWER(SECCOMP_RET_ERRNO | (error))
#define UNLESS(number, skipped) BPF_JUMP(BPF_JMP | BPF_JEQ | BPF_K, number, 0, skipped)
#define IF_ANY(bits, skipped) BPF_JUMP(BPF_JMP | BPF_JSET | BPF_K, bits, 0, skipped)

/* A call that is intercepted; and one that is intercepted unless its argument has any of these bits. */
#define SEEN(number, how) UNLESS(number, 1), ANSWER(how)
#define SEEN_WITHOUT(number, argument, bits, how) \
	UNLESS(number, 4), LOAD(args[argument]), IF_ANY(bits, 1), ANSWER(SECCOMP_RET_ALLOW), ANSWER(how)

/* A mount, unless its flags have any of these bits. The kernel takes an old mark out of the flags first, which has such bits. */
#define SEEN_MOUNTS(bits, how)                                                                 \
	UNLESS(__NR_mount, 7), LOAD(args[3]), BPF_STMT(BPF_ALU | BPF_AND | BPF_K, MS_MGC_MSK),     \
		BPF_JUMP(BPF_JMP | BPF_JEQ | BPF_K, MS_MGC_VAL, 3, 0), LOAD(args[3]), IF_ANY(bits, 1), \
		ANSWER(SECCOMP_RET_ALLOW), ANSWER(how)

/* The reverse: unless its argument has none of these bits. */
#define SEEN_WITH(number, argument, bits, how) \
	UNLESS(number, 4), LOAD(args[argument]), IF_ANY(bits, 1), ANSWER(how), ANSWER(SECCOMP_RET_ALLOW)

/* A call that is intercepted if this argument is this number. */
#define SEEN_IF(number, argument, value, how) \
	UNLESS(number, 4), LOAD(args[argument]), UNLESS(value, 1), ANSWER(how), ANSWER(SECCOMP_RET_ALLOW)

#define STOPS (SECCOMP_RET_TRACE | FILTER_MARK)

/* Mounts with these flags make no new file system. */
static const unsigned other_mounts = MS_REMOUNT | MS_BIND | MS_MOVE | MS_SHARED | MS_PRIVATE | MS_SLAVE | MS_UNBINDABLE;
/* Opens with these flags do not read a text of /proc. */
static const unsigned other_opens = O_WRONLY | O_DIRECTORY | O_PATH;

/* A signal does not interrupt a call that waits for the helper, as it does not interrupt an open
   of a file on a disk. Before Linux 5.19 it does. The descriptor is the listener. It belongs to
   the caller, and closes at an exec. */
static int install(const struct sock_fprog *program)
{
	const unsigned long flags = SECCOMP_FILTER_FLAG_NEW_LISTENER;
	int fd = (int)syscall(SYS_seccomp, SECCOMP_SET_MODE_FILTER, flags | SECCOMP_FILTER_FLAG_WAIT_KILLABLE_RECV,
		program);
	return fd < 0 && errno == EINVAL ? (int)syscall(SYS_seccomp, SECCOMP_SET_MODE_FILTER, flags, program) : fd;
}

/* The program chooses the system call, its number and every argument. Each call that makes a process or a thread stops,
   whatever its flags. All other entries to the same calls (32-bit, x32) do not exist here. io_uring, which opens files that
   no filter sees, is not allowed, as with kernel.io_uring_disabled. A filter that the program adds later can refuse more,
   but can allow nothing that this filter stops. */
int filter_install(void)
{
	struct sock_filter filter[] = {
		LOAD(arch),
		BPF_JUMP(BPF_JMP | BPF_JEQ | BPF_K, NATIVE, 1, 0),
		FAIL(ENOSYS),
		LOAD(nr),
#if defined(__x86_64__)
		BPF_JUMP(BPF_JMP | BPF_JGE | BPF_K, X32, 0, 1),
		FAIL(ENOSYS),
#endif
		SEEN(__NR_clone, STOPS),
		SEEN(__NR_clone3, STOPS),
#ifdef __NR_fork
		SEEN(__NR_fork, STOPS),
		SEEN(__NR_vfork, STOPS),
#endif
		SEEN(__NR_io_uring_setup, SECCOMP_RET_ERRNO | EPERM),
		SEEN_WITH(__NR_unshare, 0, CLONE_NEWCGROUP | CLONE_NEWNS, STOPS),
		SEEN(__NR_setns, STOPS),
		SEEN(__NR_chroot, STOPS),
		SEEN(__NR_pivot_root, STOPS),
		SEEN_MOUNTS(other_mounts, SECCOMP_RET_USER_NOTIF),
		SEEN(__NR_fsopen, SECCOMP_RET_USER_NOTIF),
		SEEN(__NR_fsconfig, SECCOMP_RET_USER_NOTIF),
		SEEN(__NR_fsmount, SECCOMP_RET_USER_NOTIF),
		SEEN(__NR_fspick, SECCOMP_RET_USER_NOTIF),
		SEEN(__NR_move_mount, SECCOMP_RET_USER_NOTIF),
		SEEN(__NR_statmount, SECCOMP_RET_ERRNO | ENOSYS),
		SEEN(__NR_listmount, SECCOMP_RET_ERRNO | ENOSYS),
		SEEN(__NR_ptrace, SECCOMP_RET_USER_NOTIF),
		SEEN_WITH(__NR_prlimit64, 0, UINT_MAX, SECCOMP_RET_USER_NOTIF),
		SEEN_IF(__NR_prctl, 0, PR_SET_SECCOMP, STOPS),
		SEEN_WITHOUT(__NR_seccomp, 0, ~(unsigned)SECCOMP_SET_MODE_FILTER, STOPS), /* it and strict mode */
		SEEN_WITH(__NR_waitid, 3, WNOHANG, STOPS),
		SEEN_WITH(__NR_wait4, 2, WNOHANG, STOPS),
		SEEN(__NR_openat2, SECCOMP_RET_USER_NOTIF),
		SEEN(__NR_statfs, SECCOMP_RET_USER_NOTIF),
		SEEN(__NR_fstatfs, SECCOMP_RET_USER_NOTIF),
#ifdef __NR_open
		SEEN_WITHOUT(__NR_open, 1, other_opens, SECCOMP_RET_USER_NOTIF),
#endif
		SEEN_WITHOUT(__NR_openat, 2, other_opens, SECCOMP_RET_USER_NOTIF),
		ANSWER(SECCOMP_RET_ALLOW),
	};
	struct sock_fprog program = { sizeof filter / sizeof *filter, filter };
	/* the superuser of its namespace may install a filter; others first give up gaining privileges */
	int fd = install(&program);
	if (fd < 0 && prctl(PR_SET_NO_NEW_PRIVS, 1, 0, 0, 0) == 0)
		fd = install(&program);
	return fd;
}

/* It has to agree with the filter above: what a filter of the program sends to the tracer, and
   this one does not, is refused by the supervisor. */
bool filter_stops(long call, const uint64_t args[6])
{
	switch (call) {
	case __NR_clone:
	case __NR_clone3:
#ifdef __NR_fork
	case __NR_fork:
	case __NR_vfork:
#endif
	case __NR_setns:
	case __NR_chroot:
	case __NR_pivot_root:
		return true;
	case __NR_unshare:
		return args[0] & (CLONE_NEWCGROUP | CLONE_NEWNS);
	case __NR_prctl:
		return (unsigned)args[0] == PR_SET_SECCOMP;
	case __NR_seccomp:
		return (unsigned)args[0] <= SECCOMP_SET_MODE_FILTER;
	case __NR_waitid:
		return args[3] & WNOHANG;
	case __NR_wait4:
		return args[2] & WNOHANG;
	default:
		return false;
	}
}

/* prctl and seccomp are the two calls that add one. */
bool filter_is_added(long call, const uint64_t args[6])
{
	return call == SYS_prctl ? args[1] == SECCOMP_MODE_FILTER : (unsigned)args[0] == SECCOMP_SET_MODE_FILTER;
}

/* ---------------------------------------------------------------- the strict mode */

/* The kernel takes an int as the first argument of seccomp, and as its flags: what is above is not looked at. */
int filter_wants_strict(long call, const uint64_t args[6])
{
	if (call == SYS_prctl && args[1] != SECCOMP_MODE_STRICT)
		return 1;
	if (call == SYS_seccomp && (unsigned)args[0] != SECCOMP_SET_MODE_STRICT)
		return 1;
	return call == SYS_seccomp && ((unsigned)args[1] || args[2]) ? -EINVAL : 0;
}

/* More than one: the program has a filter of its own beside this one. The kernel then refuses
   strict mode. */
int filter_strict_result(long filters)
{
	return filters > 1 ? -EINVAL : 0;
}

/* The four calls of the kernel's strict mode. */
bool filter_strict_allows(long call)
{
	return call == SYS_read || call == SYS_write || call == SYS_exit || call == SYS_rt_sigreturn;
}
