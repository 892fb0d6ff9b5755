/* tasks first|other: a program with threads, for tasks.py. It obeys one line of its standard input after the other, and answers
   each with one line: what it has made, or the name of an errno. Its first thread reads the lines, or another one does. */
#include <errno.h>
#include <fcntl.h>
#include <linux/sched.h>
#include <pthread.h>
#include <semaphore.h>
#include <signal.h>
#include <spawn.h>
#include <stdio.h>
#include <stdlib.h>
#include <string.h>
#include <sys/syscall.h>
#include <time.h>
#include <unistd.h>

enum { MOST = 4096, STACK = 65536 };

static struct idle {
	pthread_t thread;
	sem_t begun, ends;
	pid_t id;
} idle[MOST];
static size_t count;
static pthread_attr_t small;

static void answer(long made)
{
	if (made >= 0)
		printf("%ld\n", made);
	else
		printf("%s\n", strerrorname_np(errno));
	fflush(stdout);
}

static void *rest(void *of)
{
	struct idle *own = of;
	own->id = gettid();
	sem_post(&own->begun);
	while (sem_wait(&own->ends))
		;
	return NULL;
}

/* Its number; or -1 with errno. */
static long make_thread(struct idle *t)
{
	sem_init(&t->begun, 0, 0);
	sem_init(&t->ends, 0, 0);
	if ((errno = pthread_create(&t->thread, &small, rest, t)))
		return -1;
	while (sem_wait(&t->begun))
		;
	return t->id;
}

static void end_newest(void)
{
	struct idle *t = &idle[--count];
	sem_post(&t->ends);
	pthread_join(t->thread, NULL);
	answer(t->id);
}

static long make_child(void)
{
	pid_t pid = fork();
	while (pid == 0)
		pause();
	return pid;
}

static long make_program(void)
{
	static char *const words[] = { (char *)"sleep", (char *)"600", NULL };
	pid_t pid;
	errno = posix_spawn(&pid, "/bin/sleep", NULL, NULL, words, environ);
	return errno ? -1 : pid;
}

/* A child, or a thread, that is born in a group. It waits until it is killed. */
static long make_in(const char *group, unsigned long flags)
{
	static char stack[STACK] __attribute__((aligned(16)));
	struct clone_args args = { .flags = flags | CLONE_INTO_CGROUP };
	args.cgroup = (__u64)open(group, O_RDONLY | O_DIRECTORY | O_CLOEXEC);
	args.exit_signal = flags ? 0 : SIGCHLD;
	if (flags) {
		args.stack = (__u64)(size_t)stack;
		args.stack_size = sizeof stack;
	}
	long made = -1;
#if defined(__x86_64__)
	__asm__ volatile("syscall\n\ttest %%rax, %%rax\n\tjnz 2f\n1:\tmov %[pause], %%eax\n\tsyscall\n\tjmp 1b\n2:"
					 : "=a"(made)
					 : "a"(SYS_clone3), "D"(&args), "S"(sizeof args), [pause] "i"(SYS_pause)
					 : "rcx", "r11", "memory");
#endif
	close((int)args.cgroup);
	if (made < 0)
		errno = (int)-made;
	return made < 0 ? -1 : made;
}

static long move_to(const char *group)
{
	char path[4096];
	snprintf(path, sizeof path, "%s/cgroup.procs", group);
	int fd = open(path, O_WRONLY | O_CLOEXEC);
	long moved = fd < 0 ? -1 : write(fd, "0", 1);
	close(fd);
	return moved;
}

/* Some threads make threads at the same time, sixteen each: how many they have made. */
static pthread_barrier_t all_there;
static long made_in_race;

static void *make_many(void *from)
{
	pthread_barrier_wait(&all_there);
	for (int i = 0; i < 16; i++)
		if (make_thread((struct idle *)from + i) > 0)
			__atomic_add_fetch(&made_in_race, 1, __ATOMIC_RELAXED);
	return NULL;
}

static long race(unsigned threads)
{
	pthread_t all[16];
	made_in_race = 0;
	pthread_barrier_init(&all_there, NULL, threads);
	for (unsigned i = 0; i < threads; i++)
		if (pthread_create(&all[i], &small, make_many, &idle[count + 16 * i]))
			exit(1);
	for (unsigned i = 0; i < threads; i++)
		pthread_join(all[i], NULL);
	return made_in_race;
}

static void *end_at_once(void *unused)
{
	return unused;
}

/* Threads, one after the other: nanoseconds for each. */
static long churn(long times)
{
	struct timespec from, to;
	pthread_t t;
	clock_gettime(CLOCK_MONOTONIC, &from);
	for (long i = 0; i < times; i++)
		if ((errno = pthread_create(&t, &small, end_at_once, NULL)) || pthread_join(t, NULL))
			return -1;
	clock_gettime(CLOCK_MONOTONIC, &to);
	return ((to.tv_sec - from.tv_sec) * 1000000000L + to.tv_nsec - from.tv_nsec) / times;
}

static sem_t first_leaves;

static void obey(const char *what, const char *more)
{
	const unsigned long as_thread = CLONE_VM | CLONE_FS | CLONE_FILES | CLONE_SIGHAND | CLONE_THREAD | CLONE_SYSVSEM;
	if (strcmp(what, "thread") == 0) {
		long made = make_thread(&idle[count]);
		count += made > 0;
		answer(made);
	} else if (strcmp(what, "end") == 0)
		end_newest();
	else if (strcmp(what, "fork") == 0)
		answer(make_child());
	else if (strcmp(what, "spawn") == 0)
		answer(make_program());
	else if (strcmp(what, "into") == 0)
		answer(make_in(more, 0));
	else if (strcmp(what, "thread-into") == 0)
		answer(make_in(more, as_thread));
	else if (strcmp(what, "move") == 0)
		answer(move_to(more));
	else if (strcmp(what, "race") == 0)
		answer(race((unsigned)atoi(more)));
	else if (strcmp(what, "churn") == 0)
		answer(churn(atol(more)));
	else if (strcmp(what, "leave") == 0)
		answer(sem_post(&first_leaves));
	else if (strcmp(what, "exec") == 0) /* without its first thread a process has no /proc/self/exe */
		answer(execl("/proc/thread-self/exe", "tasks", "first", (char *)NULL));
	else
		exit(2);
}

static void *obey_all(void *unused)
{
	char line[4096], what[32], more[4096];
	(void)unused;
	answer(gettid());
	while (fgets(line, sizeof line, stdin)) {
		more[0] = 0;
		if (sscanf(line, "%31s %4095s", what, more) < 1)
			exit(2);
		obey(what, more);
	}
	exit(0);
}

int main(int argc, char **argv)
{
	pthread_t other;
	setvbuf(stdin, NULL, _IONBF, 0); /* what is not read yet is for the program that is executed */
	if (argc != 2 || pthread_attr_init(&small) || pthread_attr_setstacksize(&small, STACK) ||
		sem_init(&first_leaves, 0, 0))
		return 2;
	if (strcmp(argv[1], "first") == 0)
		obey_all(NULL);
	if (pthread_create(&other, NULL, obey_all, NULL))
		return 1;
	while (sem_wait(&first_leaves))
		;
	syscall(SYS_exit, 0); /* of this thread alone */
}
