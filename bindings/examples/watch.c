/* A monitor that waits for refused forks, tested with a fork that a limit refuses. On a mount it would poll pids.events for POLLPRI
 * and read it again; in memory mk_wait_file is both. */
#include <makhloeum.h>
#include <pthread.h>
#include <stdio.h>

enum { TEXT_BYTES = 64, PATIENCE_MILLISECONDS = 10000 };

/* Waits until forks were refused in the group since `seen`, which becomes the new text. Returns whether it came. */
static bool wait_for_refusal(mk_handle *h, const char *group, char seen[TEXT_BYTES])
{
	mk_info info;
	return mk_wait_file(h, group, "pids.events", seen, PATIENCE_MILLISECONDS, seen, TEXT_BYTES, &info) == MK_DONE;
}

/* The program that is monitored: one fork more than its limit of two processes. */
static void *service(void *h)
{
	mk_info info;
	uint32_t first = mk_fork(h, 1, 2, &info), second = mk_fork(h, 1, 3, &info);
	return first == MK_DONE && second == MK_REFUSED && info.code == MK_PIDS_MAX ? h : NULL;
}

int main(void)
{
	mk_handle h = { 0 };
	mk_info info;
	pthread_t thread;
	void *good;
	char seen[TEXT_BYTES];
	if (mk_open(&h) != MK_DONE || mk_mkdir(&h, "/service", &info) != MK_DONE)
		return 1;
	if (mk_write(&h, "/service", "pids.max", "2", &info) != MK_DONE || mk_attach(&h, "/service", 1, &info) != MK_DONE)
		return 1;
	if (mk_read(&h, "/service", "pids.events", seen, sizeof seen, &info) != MK_DONE)
		return 1;
	if (pthread_create(&thread, NULL, service, &h) != 0)
		return 1;
	if (!wait_for_refusal(&h, "/service", seen))
		return 1;
	printf("/service: %s", seen);
	if (pthread_join(thread, &good) != 0 || good == NULL)
		return 1;
	return mk_close(&h) == MK_DONE ? 0 : 1;
}
