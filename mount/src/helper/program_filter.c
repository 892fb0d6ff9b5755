#include "helper/program_filter.h"
#include "common/cleanup.h"
#include "helper/helper.h"
#include "helper/program_memory.h"
#include <linux/filter.h>
#include <linux/seccomp.h>
#include <stdbool.h>
#include <stddef.h>
#include <string.h>
#include <sys/syscall.h>

/* RED_ZONE: what a function may use below the stack pointer, by the ABI of x86_64. */
enum { RED_ZONE = 128, UPPER_HALF = 4 };

/* The machine's bytes are in little endian. A filter begins with 0 in its register. */
static const struct sock_filter beginning[] = {
	BPF_STMT(BPF_LD | BPF_W | BPF_ABS, offsetof(struct seccomp_data, nr)),
	/* Any other call goes on at the last line. */
	BPF_JUMP(BPF_JMP | BPF_JEQ | BPF_K, __NR_clone, 0, 3),
	BPF_STMT(BPF_LD | BPF_W | BPF_ABS, offsetof(struct seccomp_data, args[5]) + UPPER_HALF),
	BPF_JUMP(BPF_JMP | BPF_JEQ | BPF_K, WAS_CLONE3, 0, 1),
	BPF_STMT(BPF_RET | BPF_K, SECCOMP_RET_ALLOW),
	/* Then the program's own filter begins, as it would have alone. */
	BPF_STMT(BPF_LD | BPF_W | BPF_IMM, 0),
};

enum { ADDED = sizeof beginning / sizeof *beginning };

/* Whether this is part of the first stack of a process. There a signal handler may begin below the stack pointer at any time, so
   nothing in use is there. A language's own stacks may have other objects below them. */
static bool is_on_first_stack(pid_t thread, unsigned long from, unsigned long to)
{
	char path[40], line[512];
	unsigned long begin, end;
	snprintf(path, sizeof path, "%d/maps", thread);
	cleanup_stream FILE *maps = fopen(path, "re");
	while (maps && fgets(line, sizeof line, maps))
		if (strstr(line, " [stack]\n") && sscanf(line, "%lx-%lx", &begin, &end) == 2)
			return from >= begin && to <= end;
	return false;
}

unsigned long program_filter_copy(pid_t thread, unsigned long at, unsigned long stack)
{
	struct {
		struct sock_fprog program;
		struct sock_filter code[BPF_MAXINSNS];
	} copy;
	struct sock_fprog *program = &copy.program;
	/* A filter that is too long with the beginning is added without it. */
	if (!program_memory_read(thread, at, program, sizeof *program) || program->len > BPF_MAXINSNS - ADDED)
		return 0;
	size_t own = program->len * sizeof *copy.code, size = offsetof(__typeof__(copy), code) + sizeof beginning + own;
	/* The thread is stopped in a call, so it does not use what is below its stack pointer and the
	   red zone. */
	unsigned long to = stack - RED_ZONE - size;
	memcpy(copy.code, beginning, sizeof beginning);
	if (!program_memory_read(thread, (unsigned long)program->filter, copy.code + ADDED, own))
		return 0;
	/* The copy's own address, in the memory of the program. */
	program->len = (unsigned short)(program->len + ADDED);
	program->filter = (struct sock_filter *)(to + offsetof(__typeof__(copy), code));
	if (!is_on_first_stack(thread, to, stack) || !program_memory_write(thread, to, &copy, size))
		return 0;
	return to;
}
