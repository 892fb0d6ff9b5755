/* For LD_PRELOAD: a SIGKILL by the server of the program MAKHLOEUM, which leads a session, waits as long as there is a file
   HELD_KILL.hold. That it began is said by a file HELD_KILL.began. So what happens while it kills can be seen. */
#include <fcntl.h>
#include <signal.h>
#include <stdbool.h>
#include <stdio.h>
#include <stdlib.h>
#include <string.h>
#include <sys/syscall.h>
#include <unistd.h>

enum { PATH = 4096, MOST = 60000 };

static bool is_it(void)
{
	char self[PATH], wanted[PATH];
	const char *program = getenv("MAKHLOEUM");
	ssize_t n = readlink("/proc/self/exe", self, sizeof self - 1);
	if (!program || n <= 0 || !realpath(program, wanted))
		return false;
	self[n] = 0;
	return strcmp(self, wanted) == 0;
}

int kill(pid_t pid, int number)
{
	char hold[PATH], began[PATH];
	const char *file = getenv("HELD_KILL");
	if (number == SIGKILL && file && getsid(0) == getpid() && is_it()) {
		snprintf(hold, sizeof hold, "%s.hold", file);
		snprintf(began, sizeof began, "%s.began", file);
		if (access(hold, F_OK) == 0)
			close(open(began, O_CREAT | O_WRONLY | O_CLOEXEC, 0600));
		for (int i = 0; i < MOST && access(hold, F_OK) == 0; i++)
			usleep(1000);
	}
	return (int)syscall(SYS_kill, pid, number);
}
