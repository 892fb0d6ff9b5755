/*
 * Counts the instructions of a program's own code for some of its lines, not those of its libraries:
 *
 *   steps FIRST PROGRAM < LINES
 *
 * The program gets a line at each read of standard input that would wait. From the line with the number FIRST on, each instruction
 * up to the next read is a step of ptrace. For each of these lines a line is printed with the number of steps inside the program's
 * file. The program's own output is dropped. The status is 3 if no process can be traced here.
 */
#define _GNU_SOURCE
#include <fcntl.h>
#include <inttypes.h>
#include <limits.h>
#include <signal.h>
#include <stdbool.h>
#include <stdint.h>
#include <stdio.h>
#include <stdlib.h>
#include <string.h>
#include <sys/ptrace.h>
#include <sys/syscall.h>
#include <sys/user.h>
#include <sys/wait.h>
#include <unistd.h>

/* A status of the child. */
enum { UNTRACED = 126 };

static pid_t child;
static uint64_t first_byte, last_byte;

static void fail(const char *what)
{
	perror(what);
	if (child > 0)
		kill(child, SIGKILL);
	exit(1);
}

/* Lets the program run until its next stop. Returns false once it has ended. */
static bool run(enum __ptrace_request how)
{
	int status;

	if (ptrace(how, child, NULL, NULL) != 0 || waitpid(child, &status, 0) != child)
		fail("ptrace");
	if (WIFSTOPPED(status))
		return true;
	if (!WIFEXITED(status) || WEXITSTATUS(status) != 0)
		fail("the program");
	return false;
}

static struct user_regs_struct registers(void)
{
	struct user_regs_struct found;

	if (ptrace(PTRACE_GETREGS, child, NULL, &found) != 0)
		fail("registers");
	return found;
}

/* Whether the program is about to read standard input: a syscall that has not returned, or its instruction. */
static bool reads(const struct user_regs_struct *at)
{
	return at->orig_rax == SYS_read && at->rax == (uint64_t)-38 && at->rdi == STDIN_FILENO;
}

static bool is_before_read(const struct user_regs_struct *at)
{
	long word = ptrace(PTRACE_PEEKTEXT, child, at->rip, NULL);

	return (word & 0xffff) == 0x050f && at->rax == SYS_read && at->rdi == STDIN_FILENO;
}

/* Where the file that the program was started from is mapped. */
static void find_code(void)
{
	char name[64], own[PATH_MAX], line[PATH_MAX + 128];
	FILE *maps;
	ssize_t length;

	snprintf(name, sizeof name, "/proc/%d/exe", (int)child);
	length = readlink(name, own, sizeof own - 1);
	if (length < 0)
		fail(name);
	own[length] = '\0';
	snprintf(name, sizeof name, "/proc/%d/maps", (int)child);
	maps = fopen(name, "r");
	if (maps == NULL)
		fail(name);
	while (fgets(line, sizeof line, maps) != NULL) {
		uint64_t from, to;

		if (strstr(line, own) == NULL || sscanf(line, "%" SCNx64 "-%" SCNx64, &from, &to) != 2)
			continue;
		if (first_byte == 0)
			first_byte = from;
		last_byte = to;
	}
	fclose(maps);
}

static void start(char **program, int input)
{
	int status;

	child = fork();
	if (child < 0)
		fail("fork");
	if (child == 0) {
		int null = open("/dev/null", O_WRONLY);

		if (null < 0 || dup2(null, STDOUT_FILENO) < 0 || dup2(input, STDIN_FILENO) < 0 ||
			ptrace(PTRACE_TRACEME, 0, NULL, NULL) != 0)
			_exit(UNTRACED);
		execv(program[0], program);
		_exit(1);
	}
	if (waitpid(child, &status, 0) != child)
		fail("waitpid");
	if (WIFEXITED(status))
		exit(WEXITSTATUS(status) == UNTRACED ? 3 : 1);
	find_code();
}

/* Goes on to the next read of standard input, an instruction at a time or not. Returns false once the program has ended. */
static bool next_read(bool counts, unsigned long *steps)
{
	while (run(counts ? PTRACE_SINGLESTEP : PTRACE_SYSCALL)) {
		struct user_regs_struct at = registers();

		if (counts ? is_before_read(&at) : reads(&at))
			return true;
		*steps += counts && first_byte <= at.rip && at.rip < last_byte;
	}
	return false;
}

int main(int count, char **words)
{
	unsigned long first, number = 0;
	char *line = NULL;
	size_t room = 0;
	ssize_t length;
	bool counts = false;
	int ends[2];

	if (count < 3) {
		fputs("steps FIRST PROGRAM < LINES\n", stderr);
		return 2;
	}
	first = strtoul(words[1], NULL, 10);
	if (pipe2(ends, O_CLOEXEC) != 0)
		fail("pipe");
	start(words + 2, ends[0]);
	close(ends[0]);
	while ((length = getline(&line, &room, stdin)) > 0) {
		unsigned long steps = 0;

		if (!next_read(counts, &steps))
			fail("the program ended");
		if (counts)
			printf("%lu\n", steps);
		if (write(ends[1], line, length) != length)
			fail("write");
		/* to the end of the call, so that its instructions are not counted twice */
		if (!counts && !run(PTRACE_SYSCALL))
			fail("the program ended");
		counts = ++number >= first;
	}
	for (bool is_open = true;;) {
		unsigned long steps = 0;
		bool has_read = next_read(counts, &steps);

		if (counts && is_open)
			printf("%lu\n", steps);
		if (!has_read)
			break;
		if (is_open)
			close(ends[1]);
		is_open = counts = false;
	}
	free(line);
	return 0;
}
