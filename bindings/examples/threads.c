/* Eight threads share one handle. Each runs a service in a group of its own, which forks until its limit refuses. */
#include <makhloeum.h>
#include <pthread.h>
#include <stdio.h>

enum { THREADS = 8, PATH_BYTES = 32 };

struct service {
	mk_handle *hierarchy;
	pthread_t thread;
	int64_t first; /* the pid of its first process */
	char group[PATH_BYTES];
	uint64_t processes;
};

static bool start(const struct service *it)
{
	mk_info info;
	return mk_mkdir(it->hierarchy, it->group, &info) == MK_DONE &&
		mk_write(it->hierarchy, it->group, "pids.max", "5", &info) == MK_DONE &&
		mk_fork(it->hierarchy, 1, it->first, &info) == MK_DONE &&
		mk_attach(it->hierarchy, it->group, it->first, &info) == MK_DONE;
}

static void *serve(void *data)
{
	struct service *it = data;
	mk_info info;
	uint32_t status = MK_DONE;
	if (!start(it))
		return NULL;
	for (int64_t pid = it->first + 1; status == MK_DONE; pid++)
		status = mk_fork(it->hierarchy, it->first, pid, &info);
	bool refused = status == MK_REFUSED && info.code == MK_PIDS_MAX;
	return refused && mk_current(it->hierarchy, it->group, &it->processes, &info) == MK_DONE ? it : NULL;
}

int main(void)
{
	mk_handle h = { 0 };
	mk_info info;
	struct service services[THREADS];
	char refused[64];
	void *good;
	if (mk_open(&h) != MK_DONE || mk_mkdir(&h, "/services", &info) != MK_DONE)
		return 1;
	for (int i = 0; i < THREADS; i++) {
		services[i] = (struct service){ .hierarchy = &h, .first = 100 * (i + 1) };
		snprintf(services[i].group, PATH_BYTES, "/services/%d", i);
		if (pthread_create(&services[i].thread, NULL, serve, &services[i]) != 0)
			return 1;
	}
	for (int i = 0; i < THREADS; i++) {
		if (pthread_join(services[i].thread, &good) != 0 || good == NULL)
			return 1;
		printf("%s: %llu\n", services[i].group, (unsigned long long)services[i].processes);
	}
	if (mk_read(&h, "/services", "pids.events", refused, sizeof refused, &info) != MK_DONE)
		return 1;
	printf("refused forks: %s", refused);
	return mk_close(&h) == MK_DONE ? 0 : 1;
}
