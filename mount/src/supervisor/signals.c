#include "supervisor/signals.h"
#include "common/kernel.h"
#include "common/own_processes.h"
#include "supervisor/threads.h"
#include <signal.h>
#include <sys/ptrace.h>
#include <sys/signalfd.h>
#include <unistd.h>

/* AT_ONCE is how many are taken in a read. PAUSE and TOGETHER are milliseconds: TOGETHER is how far apart the two signals of a sender
   that signals both processes may be, on a busy machine. */
enum { AT_ONCE = 16, PAUSE = 100, TOGETHER = 5000 };

/* A signalfd: signals come by a read and interrupt nothing, so no handler runs at any moment. */
static int received = -1;

/* Those of faults may be makhloeum's own: they are ignored if another process sends them. SIGPIPE
   and SIGXFSZ come with its own writes. SIGKILL and SIGSTOP cannot be received. SIGCHLD is the
   supervisor's own. */
static bool is_for_program(int signal)
{
	switch (signal) {
	case SIGILL:
	case SIGTRAP:
	case SIGABRT:
	case SIGBUS:
	case SIGFPE:
	case SIGSEGV:
	case SIGKILL:
	case SIGSTOP:
	case SIGPIPE:
	case SIGXFSZ:
	case SIGCHLD:
		return false;
	default:
		return signal > 0 && signal < SIGSYS;
	}
}

bool signals_is_stop(int signal)
{
	return signal == SIGSTOP || signal == SIGTSTP || signal == SIGTTIN || signal == SIGTTOU;
}

int signals_receive(void)
{
	sigset_t held, waiting_already;
	/* none of these can fail: the signals exist */
	sigemptyset(&held);
	sigaddset(&held, SIGCHLD);
	for (int signal = 1; signal < SIGSYS; signal++)
		if (is_for_program(signal))
			sigaddset(&held, signal);
	sigprocmask(SIG_BLOCK, &held, NULL);
	sigpending(&waiting_already); /* those that the caller had blocked and got: the next call drops them */
	/* A blocked signal is queued even if its action is to be ignored, so the descriptor receives
	   those that are held. All others are dropped. */
	own_processes_ignore_signals();
	sigprocmask(SIG_SETMASK, &held, NULL);
	received = signalfd(-1, &held, SFD_CLOEXEC | SFD_NONBLOCK);
	for (int signal = 1; signal < SIGSYS; signal++)
		if (is_for_program(signal) && sigismember(&waiting_already, signal))
			kill(getpid(), signal); /* it cannot fail: this process may send itself any */
	return received;
}

/* Who sent a signal; `until` is the time until which one that the same sender sends to the other process counts as this one. */
struct sender {
	pid_t process;
	int code;
	long long until;
};

/* What has become of a signal that was passed on: it has not reached the program yet; it has; the sender's other one came before it,
   so it is not to reach the program. */
enum passing { NOTHING, SENT, CAME, TOO_LATE };

/* Of each signal: the sender of the one that waits to be passed on; of the last that the program
   got directly; and of the last that was passed on. The supervisor's only thread uses it. */
static struct {
	struct sender waiting, direct, passed;
	enum passing state;
} of[SIGSYS];
static unsigned waiting; /* a bit for each signal */

/* The code tells `kill` from `sigqueue` and from a timer. */
static bool is_same(const struct sender *a, const struct sender *b)
{
	return a->process == b->process && a->code == b->code;
}

/* Each is one half of one pair. A pair is used up: the next signal of that sender is a new one. */
static bool take(struct sender *one, const struct sender *other)
{
	bool same = is_same(one, other) && milliseconds() < one->until;
	if (same)
		one->until = 0;
	return same;
}

/* A terminal sends its signals to the program too. It ends by SIGHUP for the leader of its session alone, and a SIGALRM is of a timer
   that the caller has set for the program. With another code of the kernel's they tell of a file that the program chose (F_SETOWN). */
static bool is_sent(const struct signalfd_siginfo *one)
{
	int signal = (int)one->ssi_signo;
	bool is_alone = signal == SIGHUP || signal == SIGCONT || signal == SIGALRM;
	return is_for_program(signal) && (one->ssi_code <= 0 || (is_alone && one->ssi_code == SI_KERNEL));
}

/* A process of the run sends a signal to makhloeum only since that is in its group, or since it signals all: the first process got it
   too, or was not meant. If that is stopped, whoever continues makhloeum continues it. */
static bool is_passed_on(const struct signalfd_siginfo *one, bool is_stopped)
{
	int signal = (int)one->ssi_signo;
	struct sender from = { (pid_t)one->ssi_pid, one->ssi_code, 0 };
	if (!is_sent(one))
		return false;
	if (signal == SIGCONT && is_stopped)
		return true;
	return !threads_find(from.process) && !take(&of[signal].direct, &from);
}

static unsigned bit(int signal)
{
	return 1U << signal;
}

/* As in the kernel, SIGCONT and the signals that stop a process end each other. A signal that
   waits already is replaced: as in the kernel, only one of each waits. */
static void keep(const struct signalfd_siginfo *one)
{
	static const unsigned stops = 1U << SIGTSTP | 1U << SIGTTIN | 1U << SIGTTOU;
	int signal = (int)one->ssi_signo;
	if (signal == SIGCONT)
		waiting &= ~stops;
	else if (signals_is_stop(signal))
		waiting &= ~bit(SIGCONT);
	waiting |= bit(signal);
	of[signal].waiting = (struct sender){ (pid_t)one->ssi_pid, one->ssi_code, 0 };
}

void signals_hear(pid_t program)
{
	/* It never waits. What is left over comes with the next turn. */
	struct signalfd_siginfo some[AT_ONCE];
	/* NULL once the program has ended. */
	const struct thread *first = threads_find(program);
	ssize_t size = read(received, some, sizeof some);
	for (int i = 0; size > 0 && i < (int)((size_t)size / sizeof *some); i++)
		if (is_passed_on(&some[i], first && first->rest == LISTENS))
			keep(&some[i]);
}

bool signals_waits(int signal)
{
	return waiting & bit(signal);
}

/* Each signal stops the program, even one that it ignores: if another followed at once, it would never run. So it runs for a
   while before it gets the next. Like the kernel's, signals that wait are passed on once. */
int signals_pass_on(pid_t program)
{
	static long long next;
	if (!waiting)
		return -1;
	long long now = milliseconds(), left = next - now;
	if (left > 0)
		return (int)left;
	for (int signal = 1; signal < SIGSYS; signal++) {
		if (!signals_waits(signal))
			continue;
		of[signal].passed = of[signal].waiting;
		of[signal].state = SENT;
		kill(program, signal); /* it fails if the program has ended: then the run ends too */
	}
	waiting = 0;
	next = now + PAUSE;
	return -1;
}

/* If the direct one waits in the kernel, the one that is passed on is lost there. So the direct one is left out only once the other
   has come. */
static bool is_second(int signal, const struct sender *from)
{
	if (signals_waits(signal) && is_same(&of[signal].waiting, from)) {
		waiting &= ~bit(signal);
		return false;
	}
	if (of[signal].state == CAME && take(&of[signal].passed, from))
		return true;
	if (of[signal].state == SENT && is_same(&of[signal].passed, from)) {
		of[signal].state = TOO_LATE;
		return false;
	}
	of[signal].direct = *from;
	of[signal].direct.until = milliseconds() + TOGETHER;
	return false;
}

/* The copy that was passed on has reached the program. If the direct one came before it, the
   program has had the signal. */
static bool is_first(int signal)
{
	bool first = of[signal].state != TOO_LATE;
	of[signal].state = first ? CAME : NOTHING;
	of[signal].passed.until = milliseconds() + TOGETHER;
	return first;
}

int signals_once(pid_t thread, int signal)
{
	siginfo_t info;
	if (!is_for_program(signal) || ptrace(PTRACE_GETSIGINFO, thread, 0, &info))
		return signal;
	struct sender from = { info.si_pid, info.si_code, 0 };
	/* Only signals_pass_on sends such a signal to the program, by kill. */
	bool was_passed_on = from.process == getpid() && from.code == SI_USER;
	return (was_passed_on ? is_first(signal) : !is_second(signal, &from)) ? signal : 0;
}
