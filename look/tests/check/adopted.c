#include "adopted.h"
#include <limits.h>
#include <signal.h>
#include <stdio.h>
#include <stdlib.h>
#include <string.h>
#include <unistd.h>

enum { MOST = 4096 };

/* Known processes. One that the engine refused is real, and in no group. */
static struct {
	pid_t pid;
	bool refused;
} known[MOST];
static int count;
static int touched = -1;

static bool is_dead(pid_t pid)
{
	char path[40], text[512] = "";
	snprintf(path, sizeof path, "/proc/%d/stat", pid);
	FILE *f = fopen(path, "re");
	if (!f)
		return true;
	const char *end = fgets(text, sizeof text, f) ? strrchr(text, ')') : NULL;
	fclose(f);
	return !end || end[2] == 'Z' || end[2] == 'X';
}

static bool is_known(pid_t pid)
{
	for (int i = 0; i < count; i++)
		if (known[i].pid == pid)
			return true;
	return false;
}

static void remember(pid_t pid, bool refused)
{
	if (count < MOST) {
		known[count].pid = pid;
		known[count++].refused = refused;
	}
}

static bool add_children(mk_handle *engine, pid_t pid, bool in_root)
{
	char path[64];
	int child;
	bool born = false;
	mk_info info;
	snprintf(path, sizeof path, "/proc/%d/task/%d/children", pid, pid);
	FILE *f = fopen(path, "re");
	while (f && fscanf(f, "%d", &child) == 1) {
		if (is_known(child) || child == getpid())
			continue;
		remember(child, mk_fork(engine, pid, child, &info) != MK_DONE);
		if (in_root)
			mk_attach(engine, "/", child, &info);
		born = true;
	}
	if (f)
		fclose(f);
	return born;
}

bool adopted_look(mk_handle *engine, bool in_root, bool exits_late)
{
	bool born = false;
	mk_info info;
	for (int i = 0; i < count; i++)
		born |= add_children(engine, known[i].pid, in_root);
	for (int i = 0; i < count; i++)
		if (is_dead(known[i].pid)) {
			static int late;
			if (exits_late && !known[i].refused && late++ % 4 != 3)
				continue;
			if (!known[i].refused)
				mk_exit(engine, known[i].pid, &info);
			known[i--] = known[--count];
		}
	return born;
}

bool adopted_add(mk_handle *engine, pid_t pid)
{
	mk_info info;
	if (is_known(pid))
		return true;
	if (pid <= 1 || is_dead(pid) || mk_fork(engine, 1, pid, &info) != MK_DONE)
		return false;
	remember(pid, false);
	return true;
}

static void end(pid_t pid)
{
	for (int i = 0; i < count; i++)
		if (known[i].pid == pid) {
			kill(pid, SIGKILL);
			known[i] = known[--count];
			return;
		}
}

int adopted_kill(mk_handle *engine, const char *group, bool alone)
{
	static uint8_t paths[MK_GROUPS_MAX];
	static uint32_t pids[MOST];
	size_t size = strlen(group);
	mk_info info;
	uint32_t status = mk_groups(engine, paths, sizeof paths, &info);
	size_t groups = info.count;
	const char *path = (const char *)paths;
	for (; status == MK_DONE && groups--; path += strlen(path) + 1) {
		if (strncmp(path, group, size) || (path[size] && (alone || path[size] != '/')))
			continue;
		if (mk_processes(engine, path, pids, MOST, &info) != MK_DONE)
			continue;
		for (size_t i = 0, n = info.count; i < n; i++) {
			end((pid_t)pids[i]);
			mk_exit(engine, pids[i], &info);
		}
	}
	return status == MK_DONE ? 0 : -mk_status_errno(status, info.code);
}

bool touch_begin(const char *mountpoint)
{
	int ends[2];
	char path[PATH_MAX];
	if (pipe(ends))
		return false;
	pid_t pid = fork();
	if (pid == 0) {
		close(ends[1]);
		FILE *f = fdopen(ends[0], "r");
		while (f && fgets(path, sizeof path, f)) {
			char whole[2 * PATH_MAX];
			path[strcspn(path, "\n")] = 0;
			snprintf(whole, sizeof whole, "%s%s", mountpoint, path + 1);
			for (int times = *path - '0'; times--; usleep(10000))
				if (truncate(whole, 0))
					break;
		}
		_exit(0);
	}
	close(ends[0]);
	touched = ends[1];
	return pid > 0;
}

void touch_later(const char *group, const char *name, int times)
{
	dprintf(touched, "%d%s/%s\n", times, group, name);
}
