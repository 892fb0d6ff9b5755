/* tricks WHAT ..: programs that would pass for their supervisor, for tricks.py. */
#include "../filters.h"
#include "helper/helper.h" /* of the sources: the number */
#include "supervisor/filter.h" /* and the word */
#include <signal.h>
#include <string.h>

/* The word is that of the supervisor's own filter, which does not stop these calls. Prints those that do not fail with ENOSYS, as
   they do without a tracer. */
static int marks(void)
{
	static const struct tried some[] = {
		{ "getppid", SYS_getppid, { 0 } },
		{ "unshare", SYS_unshare, { 0 } },
		{ "prctl", SYS_prctl, { PR_GET_DUMPABLE } },
		{ "seccomp", SYS_seccomp, { SECCOMP_GET_NOTIF_SIZES, 0, 0 } },
		{ "waitid", SYS_waitid, { P_ALL, 0, 0, WEXITED } },
		{ "wait4", SYS_wait4, { 1, 0, 0 } },
	};
	for (size_t i = 0; i < sizeof some / sizeof *some; i++)
		put_if_made(&some[i], FILTER_MARK);
	return 0;
}

/* Clones with the number by which the supervisor marks what was a clone3, which the program's own filter refuses. Prints what they
   return. */
static int passes(void)
{
	filter(SYS_clone, SECCOMP_RET_ERRNO | 77);
	for (unsigned long low = 0; low < 3; low++) {
		long pid = syscall(SYS_clone, SIGCHLD, 0, 0, 0, 0, (unsigned long)WAS_CLONE3 << 32 | low);
		if (pid == 0)
			_exit(0);
		printf("%d ", pid < 0 ? errno : 0);
	}
	return 0;
}

static volatile sig_atomic_t got, codes_differ;
static int expected;

static void on_trap(int signal, siginfo_t *info, void *unused)
{
	(void)signal, (void)unused;
	got++;
	codes_differ |= info->si_code != expected;
}

/* Signals to itself that look like the stops of a traced thread: SIGTRAP with the code of each event. Each is delivered as it was
   sent, and forks in between have their children. Prints how many were sent, came and differed, and how many children were not. */
static int forged(void)
{
	static const int events[] = { 0, 1, 2, 3, 4, 5, 6, 7, 128 };
	struct sigaction act = { .sa_sigaction = on_trap, .sa_flags = SA_SIGINFO };
	int sent = 0, lost = 0;
	sigaction(SIGTRAP, &act, NULL);
	for (size_t i = 0; i < 4 * sizeof events / sizeof *events; i++) {
		siginfo_t info = { .si_signo = SIGTRAP };
		expected = info.si_code = (i % 2 ? SIGTRAP | 0x80 : SIGTRAP) | events[i / 4] << 8;
		sent += syscall(SYS_rt_sigqueueinfo, getpid(), SIGTRAP, &info) == 0;
		pid_t pid = fork();
		if (pid == 0)
			_exit(7);
		int status = 0;
		lost += pid < 0 || waitpid(pid, &status, 0) != pid || WEXITSTATUS(status) != 7;
	}
	printf("%d %d %d %d\n", sent, (int)got, (int)codes_differ, lost);
	return 0;
}

static int values[64], count;

static void on_value(int signal, siginfo_t *info, void *unused)
{
	(void)signal, (void)unused;
	if (count < 64)
		values[count++] = info->si_code == SI_QUEUE && info->si_pid == getpid() ? info->si_value.sival_int : -1;
}

/* Queued signals come in order and with their values. Prints how many do not. */
static int queued(void)
{
	struct sigaction act = { .sa_sigaction = on_value, .sa_flags = SA_SIGINFO };
	sigset_t all;
	int wrong = 0;
	sigfillset(&act.sa_mask);
	sigaction(SIGRTMIN + 3, &act, NULL);
	sigfillset(&all);
	sigprocmask(SIG_BLOCK, &all, NULL);
	for (int i = 0; i < 64; i++)
		wrong += sigqueue(getpid(), SIGRTMIN + 3, (union sigval){ .sival_int = i }) != 0;
	sigprocmask(SIG_UNBLOCK, &all, NULL);
	for (int i = 0; i < 64; i++)
		wrong += values[i] != i;
	printf("%d\n", wrong + (count != 64));
	return 0;
}

int main(int argc, char **argv)
{
	const char *what = argc > 1 ? argv[1] : "";
	if (strcmp(what, "marks") == 0)
		return marks();
	if (strcmp(what, "passes") == 0)
		return passes();
	if (strcmp(what, "forged") == 0)
		return forged();
	if (strcmp(what, "queued") == 0)
		return queued();
	return 2;
}
