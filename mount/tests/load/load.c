/* load DIRECTORY CLIENTS SECONDS: CLIENTS threads use a mount in parallel, each its own group and one that all share:
   reads, limits, moves, forks, exits, groups made and removed. Prints the operations in a second. Each client has to find
   in its own group what it put there. */
#include <errno.h>
#include <fcntl.h>
#include <limits.h>
#include <pthread.h>
#include <stdio.h>
#include <stdlib.h>
#include <string.h>
#include <sys/stat.h>
#include <time.h>
#include <unistd.h>

enum { CLIENTS_MAX = 64, FIRST_PID = 1000 };

static const char *mount_at;
static double until;

struct client {
	pthread_t thread;
	int number;
	unsigned long done, wrong;
};

static double now(void)
{
	struct timespec t;
	clock_gettime(CLOCK_MONOTONIC, &t);
	return (double)t.tv_sec + (double)t.tv_nsec / 1e9;
}

static ssize_t put(struct client *c, const char *path, const char *value)
{
	int fd = open(path, O_WRONLY);
	ssize_t n = fd < 0 ? -1 : write(fd, value, strlen(value));
	if (fd >= 0)
		close(fd);
	c->done++;
	return n;
}

static void expect(struct client *c, const char *path, const char *wanted)
{
	char text[256] = "";
	int fd = open(path, O_RDONLY);
	ssize_t n = fd < 0 ? -1 : read(fd, text, sizeof text - 1);
	if (fd >= 0)
		close(fd);
	c->done++;
	if (n < 0 || (wanted && strcmp(text, wanted) != 0))
		c->wrong++;
}

static void once(struct client *c, unsigned *dice)
{
	char group[PATH_MAX], path[PATH_MAX + 64], pid[32], value[64];
	snprintf(group, sizeof group, "%s/w%d", mount_at, c->number);
	snprintf(pid, sizeof pid, "%d", FIRST_PID + c->number);
	c->wrong += mkdir(group, 0755) != 0;
	snprintf(path, sizeof path, "%s/.makhloeum/fork", mount_at);
	snprintf(value, sizeof value, "1 %s", pid);
	c->wrong += put(c, path, value) < 0;
	snprintf(path, sizeof path, "%s/cgroup.procs", group);
	c->wrong += put(c, path, pid) < 0;
	snprintf(value, sizeof value, "%s\n", pid);
	expect(c, path, value);
	snprintf(value, sizeof value, "%d\n", rand_r(dice) % 9 + 1);
	snprintf(path, sizeof path, "%s/pids.max", group);
	c->wrong += put(c, path, value) < 0;
	expect(c, path, value);
	snprintf(path, sizeof path, "%s/cgroup.events", group);
	expect(c, path, "populated 1\nfrozen 0\n");
	snprintf(path, sizeof path, "%s/shared/cgroup.procs", mount_at);
	put(c, path, pid);
	snprintf(path, sizeof path, "%s/shared/x%d", mount_at, rand_r(dice) % 3);
	(void)(rand_r(dice) % 2 ? mkdir(path, 0755) : rmdir(path));
	snprintf(path, sizeof path, "%s/shared/pids.current", mount_at);
	expect(c, path, NULL);
	snprintf(path, sizeof path, "%s/.makhloeum/exit", mount_at);
	c->wrong += put(c, path, pid) < 0;
	c->wrong += rmdir(group) != 0;
	c->done += 3;
}

static void *work(void *client)
{
	struct client *c = client;
	unsigned dice = (unsigned)c->number;
	while (now() < until)
		once(c, &dice);
	return NULL;
}

int main(int argc, char **argv)
{
	static struct client clients[CLIENTS_MAX];
	char shared[PATH_MAX];
	unsigned long done = 0, wrong = 0;
	if (argc != 4)
		return 2;
	mount_at = argv[1];
	int count = (int)strtol(argv[2], NULL, 10);
	double seconds = strtod(argv[3], NULL);
	if (count < 1 || count > CLIENTS_MAX)
		return 2;
	snprintf(shared, sizeof shared, "%s/shared", mount_at);
	if (mkdir(shared, 0755) && errno != EEXIST)
		return 1;
	until = now() + seconds;
	for (int i = 0; i < count; i++) {
		clients[i].number = i;
		if (pthread_create(&clients[i].thread, NULL, work, &clients[i]))
			return 1;
	}
	for (int i = 0; i < count; i++) {
		pthread_join(clients[i].thread, NULL);
		done += clients[i].done;
		wrong += clients[i].wrong;
	}
	printf("%2d clients: %.0f operations a second\n", count, (double)done / seconds);
	if (wrong)
		printf("%lu answers were wrong\n", wrong);
	return wrong != 0;
}
