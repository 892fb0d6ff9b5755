/* What tests of programs use: many files in one call, waiting for a change, and faults. Exits with the number of the first check
   that fails, or 0, and prints how many held. */
#include "check.h"
#include <pthread.h>
#include <sys/wait.h>
#include <time.h>
#include <unistd.h>

static char text[65536];

static bool reads(const char *path, const char *file, const char *want)
{
	return done(mk_read(&h, path, file, text, sizeof text, &info)) && strcmp(text, want) == 0;
}

/* ---- many files in one call */

static bool is_text(const mk_text *it, const char *want)
{
	return it->status == MK_DONE && it->code == 0 && it->error == 0 && it->len == strlen(want) &&
		strcmp(text + it->at, want) == 0;
}

static int many(void)
{
	static const char names[] = "/a\0pids.current\0/\0cgroup.procs\0/c\0pids.max\0/a\0cgroup.events\0a\0pids.max\0/a "
								"b\0x\0/a\0none\0/a\0cgroup.kill\0/b\0cgroup.procs";
	enum { COUNT = 9 };
	mk_text it[COUNT];
	CHECK(done(mk_mkdir(&h, "/a", &info)) && done(mk_mkdir(&h, "/b", &info)) && done(mk_fork(&h, 1, 2, &info)) &&
		done(mk_attach(&h, "/a", 2, &info)));
	CHECK(done(mk_read_many(&h, names, COUNT, it, text, sizeof text, &info)) && info.count == COUNT);
	CHECK(is_text(&it[0], "1\n") && is_text(&it[1], "1\n") && is_text(&it[3], "populated 1\nfrozen 0\n") &&
		is_text(&it[8], ""));
	CHECK(it[2].status == MK_REFUSED && it[2].code == MK_NO_GROUP && it[2].error == ENOENT && it[2].len == 0);
	CHECK(it[4].status == MK_FAULT && it[4].code == MK_PATH && it[5].status == MK_FAULT && it[5].code == MK_PATH);
	CHECK(it[6].status == MK_FAULT && it[6].code == MK_FILE && it[7].status == MK_FAULT && it[7].code == MK_DIRECTION);
	size_t needed = info.len;
	CHECK(done(mk_read_many(&h, names, COUNT, it, text, needed, &info)) && is_text(&it[3], "populated 1\nfrozen 0\n"));
	for (size_t size = 0; size < needed; size++) {
		memset(text, '#', sizeof text);
		CHECK(mk_read_many(&h, names, COUNT, it, text, size, &info) == MK_TOO_SMALL && info.needed == needed &&
			info.len == 0 && info.error == ERANGE);
		CHECK(text[size] == '#');
	}
	CHECK(done(mk_read_many(&h, "", 0, it, text, 0, &info)) && info.count == 0 && info.len == 0);
	return 0;
}

/* answers that are longer than the library's own buffer */
static int many_long(void)
{
	enum { PIDS = 3000, COUNT = 3 };
	static const char names[] = "/b\0cgroup.procs\0/b\0pids.current\0/b\0cgroup.procs";
	static char want[PIDS * 8];
	size_t len = 0, needed;
	mk_text it[COUNT];
	for (int pid = 10; pid < 10 + PIDS; pid++) {
		CHECK(done(mk_fork(&h, 1, pid, &info)) && done(mk_attach(&h, "/b", pid, &info)));
		len += (size_t)snprintf(want + len, sizeof want - len, "%d\n", pid);
	}
	CHECK(done(mk_read_many(&h, names, COUNT, it, text, sizeof text, &info)));
	CHECK(is_text(&it[0], want) && is_text(&it[1], "3000\n") && is_text(&it[2], want));
	needed = info.len;
	CHECK(needed == 2 * (len + 1) + strlen("3000\n") + 1);
	size_t sizes[] = { 0, 1, 5000, len, len + 1, len + 7, needed - 5000, needed - 1 };
	for (size_t i = 0; i < sizeof sizes / sizeof *sizes; i++) {
		memset(text, '#', sizeof text);
		CHECK(mk_read_many(&h, names, COUNT, it, text, sizes[i], &info) == MK_TOO_SMALL && info.needed == needed &&
			info.len == 0);
		CHECK(text[sizes[i]] == '#');
	}
	memset(text, '#', sizeof text);
	CHECK(done(mk_read_many(&h, names, COUNT, it, text, needed, &info)) && info.len == needed && info.count == COUNT);
	CHECK(is_text(&it[0], want) && is_text(&it[1], "3000\n") && is_text(&it[2], want) && text[needed] == '#');
	/* a call that is made again with a larger buffer */
	static uint32_t pids[PIDS];
	CHECK(
		done(mk_fail(&h, "/b", 2, EIO, &info)) && mk_read(&h, "/b", "cgroup.procs", text, len, &info) == MK_TOO_SMALL);
	CHECK(done(mk_read(&h, "/b", "cgroup.procs", text, info.needed, &info)) && info.len == len &&
		strcmp(text, want) == 0);
	CHECK(
		mk_read(&h, "/b", "cgroup.procs", text, sizeof text, &info) == MK_FAILED && info.error == EIO && info.len == 0);
	CHECK(done(mk_fail(&h, "/b", 2, EIO, &info)) && mk_processes(&h, "/b", pids, PIDS - 1, &info) == MK_TOO_SMALL);
	CHECK(done(mk_processes(&h, "/b", pids, info.needed, &info)) && info.count == PIDS && pids[PIDS - 1] == 9 + PIDS);
	CHECK(mk_processes(&h, "/b", pids, PIDS, &info) == MK_FAILED && info.error == EIO && info.count == 0);
	CHECK(done(mk_kill(&h, "/b", &info)));
	return 0;
}

/* ---- changes */

static double now(void)
{
	struct timespec t;
	clock_gettime(CLOCK_MONOTONIC, &t);
	return (double)t.tv_sec + (double)t.tv_nsec / 1e9;
}

static void pause_for(long milliseconds)
{
	struct timespec t = { .tv_nsec = milliseconds * 1000000 };
	nanosleep(&t, NULL);
}

static void *change_later(void *unused)
{
	mk_info own;
	pause_for(50);
	return mk_mkdir(&h, "/later", &own) == MK_DONE ? unused : NULL;
}

static void *close_later(void *unused)
{
	pause_for(50);
	return mk_close(&h) == MK_DONE ? unused : NULL;
}

struct waiter {
	uint64_t seen, changes;
	uint32_t status;
};

static void *wait_for_ever(void *waiter)
{
	struct waiter *it = waiter;
	it->status = mk_wait(&h, it->seen, MK_FOREVER, &it->changes);
	return waiter;
}

static int changes(void)
{
	uint64_t first, next;
	pthread_t thread;
	void *good;
	CHECK(mk_changes(&h, &first) == MK_DONE && reads("/a", "pids.max", "max\n") && mk_changes(&h, &next) == MK_DONE &&
		next == first);
	CHECK(mk_mkdir(&h, "/a", &info) == MK_REFUSED && mk_mkdir(&h, "a", &info) == MK_FAULT &&
		mk_changes(&h, &next) == MK_DONE && next == first);
	CHECK(done(mk_mkdir(&h, "/c", &info)) && mk_wait(&h, first, 0, &next) == MK_DONE && next == first + 1);
	CHECK(done(mk_undo_to(&h, 0, &info)) && mk_wait(&h, next, 0, &next) == MK_DONE && next == first + 2);
	CHECK(done(mk_write(&h, "/", "cgroup.max.depth", "0", &info)) && mk_mkdir(&h, "/c", &info) == MK_REFUSED &&
		mk_changes(&h, &next) == MK_DONE && next == first + 3);
	CHECK(done(mk_undo_to(&h, 0, &info)) && mk_changes(&h, &first) == MK_DONE);
	double start = now();
	CHECK(mk_wait(&h, first, 60, &next) == MK_TIMED_OUT && next == first && now() - start >= 0.059);
	CHECK(pthread_create(&thread, NULL, change_later, &h) == 0);
	CHECK(mk_wait(&h, first, MK_FOREVER, &next) == MK_DONE && next == first + 1);
	CHECK(pthread_join(thread, &good) == 0 && good != NULL);
	return 0;
}

/* a wait ends with the handle, and a handle that is opened again is another */
static int closed_while_waiting(void)
{
	uint64_t first;
	pthread_t thread;
	struct waiter waiters[3];
	pthread_t threads[3];
	void *good;
	CHECK(mk_changes(&h, &first) == MK_DONE);
	CHECK(pthread_create(&thread, NULL, close_later, &h) == 0);
	for (int i = 0; i < 3; i++) {
		waiters[i] = (struct waiter){ .seen = first };
		CHECK(pthread_create(&threads[i], NULL, wait_for_ever, &waiters[i]) == 0);
	}
	for (int i = 0; i < 3; i++)
		CHECK(pthread_join(threads[i], &good) == 0 && waiters[i].status == MK_CLOSED && waiters[i].changes == 0);
	CHECK(pthread_join(thread, &good) == 0 && good != NULL);
	first = 7;
	CHECK(mk_changes(&h, &first) == MK_CLOSED && first == 0);
	first = 7;
	CHECK(mk_wait(&h, 0, 0, &first) == MK_CLOSED && first == 0);
	CHECK(mk_open(&h) == MK_DONE && mk_changes(&h, &first) == MK_DONE && first == 0);
	return 0;
}

/* A child of a fork has no waiting threads: its own calls and waits work. */
static int forked_while_waiting(void)
{
	struct waiter waiter = { .seen = 0 };
	pthread_t thread;
	uint64_t count;
	void *good;
	CHECK(pthread_create(&thread, NULL, wait_for_ever, &waiter) == 0);
	pause_for(30);
	for (int round = 0; round < 20; round++) {
		int status = -1;
		pid_t child = fork();
		CHECK(child >= 0);
		if (child == 0) {
			alarm(300); /* ends what hangs */
			for (int i = 0; i < 5; i++)
				if (mk_mkdir(&h, "/x", &info) != MK_DONE || mk_rmdir(&h, "/x", &info) != MK_DONE)
					_exit(1);
			_exit(mk_wait(&h, 10, 1, &count) == MK_TIMED_OUT && count == 10 && mk_close(&h) == MK_DONE ? 0 : 2);
		}
		CHECK(waitpid(child, &status, 0) == child && WIFEXITED(status) && WEXITSTATUS(status) == 0);
	}
	CHECK(done(mk_mkdir(&h, "/x", &info)) && pthread_join(thread, &good) == 0 && waiter.status == MK_DONE &&
		waiter.changes == 1);
	return 0;
}

/* ---- faults */

static bool failed(uint32_t status, int error)
{
	return status == MK_FAILED && info.code == 0 && info.error == error && info.len == 0;
}

static int failing(void)
{
	static const char names[] = "/a\0pids.max";
	uint8_t out[64];
	uint32_t pids[2];
	uint64_t value;
	mk_text it;
	size_t left, before, after;
	CHECK(done(mk_mkdir(&h, "/a", &info)) && done(mk_mkdir(&h, "/b", &info)) && mk_depth(&h, &before) == MK_DONE);
	CHECK(done(mk_fail(&h, "/a", 1, EIO, &info)) &&
		failed(mk_read(&h, "/a", "pids.max", text, sizeof text, &info), EIO) && reads("/a", "pids.max", "max\n"));
	CHECK(done(mk_fail(&h, "/a", 3, ENOSPC, &info)) && reads("/a", "pids.max", "max\n") &&
		reads("/b", "pids.max", "max\n"));
	CHECK(done(mk_current(&h, "/a", &value, &info)) && failed(mk_mkdir(&h, "/a", &info), ENOSPC) &&
		mk_mkdir(&h, "/a", &info) == MK_REFUSED);
	/* each kind of call */
	CHECK(done(mk_fail(&h, "/a", 1, EIO, &info)) && failed(mk_rmdir(&h, "/a", &info), EIO));
	CHECK(done(mk_fail(&h, "/a", 1, EIO, &info)) && failed(mk_attach(&h, "/a", 1, &info), EIO));
	CHECK(done(mk_fail(&h, "/a", 1, EIO, &info)) && failed(mk_write(&h, "/a", "pids.max", "5", &info), EIO));
	CHECK(done(mk_fail(&h, "/a", 1, EIO, &info)) && failed(mk_kill(&h, "/a", &info), EIO));
	for (size_t i = 0; i < GROUP_NUMBERS; i++)
		CHECK(done(mk_fail(&h, "/a", 1, EIO, &info)) &&
			failed(ask_number(&group_numbers[i], &h, "/a", &value, &info), EIO) && value == 0);
	CHECK(done(mk_fail(&h, "/a", 1, EIO, &info)) && failed(mk_processes(&h, "/a", pids, 2, &info), EIO) &&
		info.count == 0);
	CHECK(done(mk_fail(&h, "/a", 1, EIO, &info)) && done(mk_read_many(&h, names, 1, &it, text, sizeof text, &info)) &&
		it.status == MK_FAILED && it.error == EIO);
	CHECK(done(mk_fail(&h, "/a", 1, EIO, &info)) &&
		failed(mk_children(&h, (const uint8_t *)"/a", 2, out, sizeof out, &info), EIO));
	CHECK(done(mk_fail(&h, "/a", 1, EIO, &info)) &&
		failed(mk_subtree(&h, (const uint8_t *)"/a", 2, out, sizeof out, &info), EIO));
	CHECK(done(mk_fail(&h, "/a", 1, EIO, &info)) && failed(mk_has_group(&h, (const uint8_t *)"/a", 2, &info), EIO));
	CHECK(done(mk_fail(&h, "/a", 1, EIO, &info)) &&
		failed(mk_line(&h, 1, (const uint8_t *)" mkdir\t/a", 9, out, sizeof out, &info), EIO));
	CHECK(done(mk_fail(&h, "/a", 1, EIO, &info)) &&
		failed(mk_line(&h, 1, (const uint8_t *)"\rcat\r/a\rpids.max\r", 18, out, sizeof out, &info), EIO));
	CHECK(done(mk_fail(&h, "/a", 1, EIO, &info)) && failed(mk_put(&h, "/a", "pids.max", "5", 1, 1, &info), EIO));
	CHECK(done(mk_fail(&h, "/a", 1, EIO, &info)) &&
		failed(mk_words(&h, 1, "mkdir/a", (const size_t[]){ 5, 2 }, 2, out, sizeof out, &info), EIO));
	CHECK(mk_depth(&h, &after) == MK_DONE && after == before && reads("/a", "pids.max", "max\n"));
	/* a write of a value is one call */
	CHECK(done(mk_fail(&h, "/a", 2, EIO, &info)) && done(mk_put(&h, "/a", "pids.max", "5", 1, 1, &info)) &&
		failed(mk_put(&h, "/a", "pids.max", "6", 1, 1, &info), EIO) && reads("/a", "pids.max", "5\n"));
	CHECK(done(mk_put(&h, "/a", "pids.max", "max", 3, 1, &info)));
	/* a call that does not name the path, and a call that is made again with a larger buffer */
	CHECK(done(mk_fail(&h, "/a", 2, EIO, &info)) &&
		mk_line(&h, 1, (const uint8_t *)"# /a", 4, out, sizeof out, &info) == MK_SKIPPED);
	CHECK(
		done(mk_mkdir(&h, "/a/x", &info)) && mk_children(&h, (const uint8_t *)"/a", 2, out, 1, &info) == MK_TOO_SMALL);
	CHECK(mk_children(&h, (const uint8_t *)"/a", 2, out, sizeof out, &info) == MK_DONE &&
		failed(mk_children(&h, (const uint8_t *)"/a", 2, out, sizeof out, &info), EIO));
	CHECK(done(mk_fail(&h, "/a", 2, EIO, &info)) && mk_read(&h, "/a", "pids.max", text, 4, &info) == MK_TOO_SMALL &&
		info.needed == 5);
	CHECK(mk_read(&h, "/a", "pids.max", text, 5, &info) == MK_DONE &&
		failed(mk_read(&h, "/a", "pids.max", text, 5, &info), EIO));
	CHECK(done(mk_fail(&h, "/", 2, EIO, &info)) && mk_processes(&h, "/", pids, 0, &info) == MK_TOO_SMALL &&
		info.needed == 1);
	CHECK(done(mk_processes(&h, "/", pids, 1, &info)) && info.count == 1 && pids[0] == 1 &&
		failed(mk_processes(&h, "/", pids, 1, &info), EIO));
	/* the root, a group that does not exist, two faults due at one call */
	CHECK(done(mk_fail(&h, "/", 1, EACCES, &info)) &&
		failed(mk_read(&h, "/", "cgroup.procs", text, sizeof text, &info), EACCES));
	CHECK(done(mk_fail(&h, "/none", 1, EIO, &info)) && failed(mk_rmdir(&h, "/none", &info), EIO));
	CHECK(done(mk_fail(&h, "/a", 1, EIO, &info)) && done(mk_fail(&h, "/a", 1, ENOSPC, &info)) &&
		done(mk_fail(&h, "/b", 7, EIO, &info)));
	CHECK(failed(mk_rmdir(&h, "/a", &info), ENOSPC) && mk_clear_faults(&h, &left) == MK_DONE && left == 1 &&
		mk_clear_faults(&h, &left) == MK_DONE && left == 0);
	CHECK(mk_fail(&h, "a", 1, EIO, &info) == MK_FAULT && info.code == MK_PATH &&
		mk_fail(&h, "/a", 0, EIO, &info) == MK_FAULT && info.code == MK_VALUE);
	/* of two faults of the arguments the path's comes first */
	CHECK(mk_fail(&h, "a", 0, EIO, &info) == MK_FAULT && info.code == MK_PATH &&
		mk_fail(&h, "a b", 1, 0, &info) == MK_FAULT && info.code == MK_PATH);
	CHECK(mk_vanish(&h, "/a/", 0, &info) == MK_FAULT && info.code == MK_PATH);
	CHECK(mk_fail(&h, "/a", 1, 0, &info) == MK_FAULT && info.code == MK_VALUE &&
		mk_clear_faults(&h, &left) == MK_DONE && left == 0);
	return 0;
}

/* An errno that is not positive is a fault of the value, and plans nothing; each that is positive is the errno of the call. */
static int errnos(void)
{
	static const struct {
		int32_t error;
		uint32_t status, code;
	} rows[] = {
		{ INT32_MIN, MK_FAULT, MK_VALUE },
		{ INT32_MIN + 1, MK_FAULT, MK_VALUE },
		{ -4096, MK_FAULT, MK_VALUE },
		{ -EIO, MK_FAULT, MK_VALUE },
		{ -1, MK_FAULT, MK_VALUE },
		{ 0, MK_FAULT, MK_VALUE },
		{ 1, MK_DONE, 0 },
		{ EIO, MK_DONE, 0 },
		{ INT32_MAX, MK_DONE, 0 },
	};
	size_t left;
	CHECK(mk_clear_faults(&h, &left) == MK_DONE && reads("/b", "pids.max", "max\n"));
	for (size_t i = 0; i < sizeof rows / sizeof *rows; i++) {
		CHECK(mk_fail(&h, "/b", 0, rows[i].error, &info) == MK_FAULT && info.code == MK_VALUE);
		CHECK(mk_fail(&h, "/b", 1, rows[i].error, &info) == rows[i].status && info.code == rows[i].code);
		CHECK(rows[i].status != MK_DONE ||
			failed(mk_read(&h, "/b", "pids.max", text, sizeof text, &info), rows[i].error));
		CHECK(reads("/b", "pids.max", "max\n") && mk_clear_faults(&h, &left) == MK_DONE && left == 0);
	}
	return 0;
}

/* Of several faults that are due at one call, the newest occurs, and the others are dropped. */
static int one_at_a_time(void)
{
	size_t left;
	uint64_t value;
	CHECK(done(mk_mkdir(&h, "/o", &info)) && done(mk_fail(&h, "/o", 1, EIO, &info)) &&
		done(mk_vanish(&h, "/o", 1, &info)));
	CHECK(mk_read(&h, "/o", "pids.max", text, sizeof text, &info) == MK_REFUSED && info.code == MK_NO_GROUP);
	CHECK(mk_clear_faults(&h, &left) == MK_DONE && left == 0 && done(mk_mkdir(&h, "/o", &info)));
	CHECK(done(mk_vanish(&h, "/o", 2, &info)) && done(mk_fail(&h, "/o", 2, EIO, &info)) &&
		done(mk_current(&h, "/o", &value, &info)));
	CHECK(failed(mk_read(&h, "/o", "pids.max", text, sizeof text, &info), EIO) && reads("/o", "pids.max", "max\n"));
	CHECK(done(mk_vanish(&h, "/o", 3, &info)) && done(mk_vanish(&h, "/o", 1, &info)) &&
		mk_rmdir(&h, "/o", &info) == MK_REFUSED && info.code == MK_NO_GROUP);
	CHECK(mk_clear_faults(&h, &left) == MK_DONE && left == 1);
	/* a call that will be made again with a larger buffer counts for none of them */
	CHECK(done(mk_mkdir(&h, "/o", &info)) && done(mk_fail(&h, "/o", 2, EIO, &info)) &&
		done(mk_fail(&h, "/o", 3, ENOSPC, &info)) && done(mk_fail(&h, "/o", 4, EPERM, &info)));
	CHECK(mk_read(&h, "/o", "pids.max", text, 4, &info) == MK_TOO_SMALL && reads("/o", "pids.max", "max\n"));
	CHECK(failed(mk_rmdir(&h, "/o", &info), EIO) && failed(mk_rmdir(&h, "/o", &info), ENOSPC) &&
		failed(mk_rmdir(&h, "/o", &info), EPERM));
	CHECK(done(mk_rmdir(&h, "/o", &info)));
	return 0;
}

static int vanishing(void)
{
	static const char names[] = "/a\0pids.current\0/b\0pids.max\0/a/x\0pids.max";
	mk_text it[3];
	uint8_t out[64];
	size_t before, left;
	CHECK(done(mk_rmdir(&h, "/x", &info)) && done(mk_mkdir(&h, "/a/x/y", &info)) && done(mk_mkdir(&h, "/ab", &info)) &&
		done(mk_fork(&h, 1, 2, &info)) && done(mk_attach(&h, "/a/x", 2, &info)));
	CHECK(mk_depth(&h, &before) == MK_DONE);
	CHECK(done(mk_vanish(&h, "/a", 1, &info)) &&
		mk_children(&h, (const uint8_t *)"/", 1, out, sizeof out, &info) == MK_DONE && info.count == 3);
	CHECK(mk_read(&h, "/a", "pids.max", text, sizeof text, &info) == MK_REFUSED && info.code == MK_NO_GROUP &&
		info.error == ENOENT);
	CHECK(mk_children(&h, (const uint8_t *)"/", 1, out, sizeof out, &info) == MK_DONE && info.count == 2 &&
		memcmp(out, "ab\0b", 5) == 0);
	CHECK(mk_where(&h, 2, text, sizeof text, &info) == MK_REFUSED && info.code == MK_NO_PROCESS);
	CHECK(done(mk_undo_to(&h, before, &info)) && info.count == 4 &&
		mk_where(&h, 2, text, sizeof text, &info) == MK_DONE && strcmp(text, "0::/a/x\n") == 0);
	/* in the middle of many, whatever the room */
	for (size_t size = 0; size < 40; size++) {
		CHECK(done(mk_vanish(&h, "/a", 1, &info)) && done(mk_fail(&h, "/b", 1, EIO, &info)));
		uint32_t status = mk_read_many(&h, names, 3, it, text, size, &info);
		if (status == MK_TOO_SMALL)
			status = mk_read_many(&h, names, 3, it, text, info.needed, &info);
		CHECK(status == MK_DONE && it[0].code == MK_NO_GROUP && it[1].status == MK_FAILED && it[1].error == EIO &&
			it[2].code == MK_NO_GROUP);
		CHECK(mk_clear_faults(&h, &left) == MK_DONE && left == 0 && done(mk_undo_to(&h, before, &info)));
	}
	/* a group with a thousand below it */
	char path[32];
	for (int i = 0; i < 1000; i++) {
		snprintf(path, sizeof path, "/a/x/%d", i);
		CHECK(done(mk_mkdir(&h, path, &info)));
	}
	CHECK(done(mk_vanish(&h, "/a", 1, &info)) && mk_rmdir(&h, "/a", &info) == MK_REFUSED && info.code == MK_NO_GROUP &&
		done(mk_undo_to(&h, before, &info)));
	CHECK(done(mk_vanish(&h, "/none", 1, &info)) &&
		mk_read(&h, "/none", "pids.max", text, sizeof text, &info) == MK_REFUSED && info.code == MK_NO_GROUP);
	CHECK(
		mk_vanish(&h, "/", 1, &info) == MK_FAULT && info.code == MK_VALUE && mk_vanish(&h, "/a", 0, &info) == MK_FAULT);
	/* a handle that is closed takes its faults along */
	CHECK(done(mk_vanish(&h, "/b", 1, &info)) && mk_close(&h) == MK_DONE &&
		mk_vanish(&h, "/b", 1, &info) == MK_CLOSED && info.error == EBADF);
	CHECK(mk_fail(&h, "/b", 1, EIO, &info) == MK_CLOSED && mk_clear_faults(&h, &left) == MK_CLOSED && left == 0);
	CHECK(mk_open(&h) == MK_DONE && mk_clear_faults(&h, &left) == MK_DONE && left == 0 && mk_close(&h) == MK_DONE);
	return 0;
}

int main(void)
{
	int (*const parts[])(void) = { many, many_long, changes, closed_while_waiting, forked_while_waiting, failing,
		errnos, one_at_a_time, vanishing };
	if (mk_open(&h) != MK_DONE)
		return 1;
	return run_all(parts, sizeof parts / sizeof *parts);
}
