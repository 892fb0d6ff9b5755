/* The program's own seccomp filters, for alike.c, noticed.c and tricks.c. */
#ifndef FILTERS_H
#define FILTERS_H

#include <errno.h>
#include <linux/filter.h>
#include <linux/seccomp.h>
#include <stddef.h>
#include <stdio.h>
#include <sys/prctl.h>
#include <sys/syscall.h>
#include <sys/wait.h>
#include <unistd.h>

static inline void use_filter(struct sock_filter *code, unsigned short size)
{
	struct sock_fprog program = { size, code };
	prctl(PR_SET_NO_NEW_PRIVS, 1, 0, 0, 0);
	if (syscall(SYS_seccomp, SECCOMP_SET_MODE_FILTER, 0, &program))
		_exit(3);
}

/* From now on a filter gives this answer to a call, and allows all others. */
static inline void filter(long call, unsigned answer)
{
	struct sock_filter code[] = {
		BPF_STMT(BPF_LD | BPF_W | BPF_ABS, offsetof(struct seccomp_data, nr)),
		BPF_JUMP(BPF_JMP | BPF_JEQ | BPF_K, (unsigned)call, 0, 1),
		BPF_STMT(BPF_RET | BPF_K, answer),
		BPF_STMT(BPF_RET | BPF_K, SECCOMP_RET_ALLOW),
	};
	use_filter(code, sizeof code / sizeof *code);
}

/* The same for a call whose second argument has this lower half. */
static inline void filter_second(long call, unsigned second, unsigned answer)
{
	struct sock_filter code[] = {
		BPF_STMT(BPF_LD | BPF_W | BPF_ABS, offsetof(struct seccomp_data, nr)),
		BPF_JUMP(BPF_JMP | BPF_JEQ | BPF_K, (unsigned)call, 0, 3),
		BPF_STMT(BPF_LD | BPF_W | BPF_ABS, offsetof(struct seccomp_data, args[1])),
		BPF_JUMP(BPF_JMP | BPF_JEQ | BPF_K, second, 0, 1),
		BPF_STMT(BPF_RET | BPF_K, answer),
		BPF_STMT(BPF_RET | BPF_K, SECCOMP_RET_ALLOW),
	};
	use_filter(code, sizeof code / sizeof *code);
}

struct tried {
	const char *name;
	long call, args[4];
};

/* A filter of a child sends the call with this word to a tracer, which the child does not have. Prints the name, unless the call
   fails with ENOSYS. */
static inline void put_if_made(const struct tried *one, unsigned word)
{
	int status;
	pid_t pid = fork();
	if (pid == 0) {
		const long *a = one->args;
		filter(one->call, SECCOMP_RET_TRACE | word);
		long result = syscall(one->call, a[0], a[1], a[2], a[3], 0, 0);
		_exit(result < 0 && errno == ENOSYS ? 0 : 1);
	}
	waitpid(pid, &status, 0);
	if (status)
		printf("%s ", one->name);
}

#endif
