/* What a second handle of an engine, another engine, one from before main, and the child of a fork see: of commands, faults, changes and
   the end. Exits with the number of the first check that fails, or 0, and prints how many held. */
#include "check.h"
#include <pthread.h>
#include <sys/wait.h>
#include <unistd.h>

enum { PATIENCE_SECONDS = 300, OUT = 512 };

static uint8_t out[OUT];
static char text[OUT];
static uint64_t value;
static size_t size;

#define PATH(path) (const uint8_t *)(path), strlen(path)

static bool failed(uint32_t status, int error)
{
	return status == MK_FAILED && info.error == error;
}

/* ---- two more handles of one engine */

static int one_engine(void)
{
	mk_handle same = h, quick, quicker, other = { 0 };
	uint64_t changes;
	mk_nonblocking(&h, &quick);
	mk_nonblocking(&quick, &quicker);
	mk_handle *const all[] = { &h, &same, &quick, &quicker };
	enum { ALL = sizeof all / sizeof *all };
	for (int by = 0; by < ALL; by++)
		for (int seen = 0; seen < ALL; seen++) {
			CHECK(done(mk_mkdir(all[by], "/a", &info)) && mk_has_group(all[seen], PATH("/a"), &info) == MK_DONE);
			CHECK(mk_changes(all[by], &changes) == MK_DONE && mk_changes(all[seen], &value) == MK_DONE &&
				value == changes && mk_wait(all[seen], changes, 0, &value) == MK_TIMED_OUT && value == changes);
			/* a fault that one plans counts the calls of all */
			CHECK(done(mk_fail(all[by], "/a", 3, EIO, &info)) && done(mk_current(all[seen], "/a", &value, &info)) &&
				done(mk_current(all[by], "/a", &value, &info)));
			CHECK(failed(mk_rmdir(all[seen], "/a", &info), EIO) && mk_clear_faults(all[by], &size) == MK_DONE &&
				size == 0);
			CHECK(done(mk_vanish(all[by], "/a", 9, &info)) && mk_clear_faults(all[seen], &size) == MK_DONE &&
				size == 1 && mk_clear_faults(all[by], &size) == MK_DONE && size == 0);
			CHECK(
				done(mk_wait_file(all[seen], "/a", "pids.max", "", 0, text, OUT, &info)) && strcmp(text, "max\n") == 0);
			CHECK(mk_depth(all[seen], &size) == MK_DONE && size == 1 && done(mk_undo_to(all[seen], 0, &info)) &&
				mk_has_group(all[by], PATH("/a"), &info) == MK_REFUSED);
			/* none of them takes another engine, nor this one again */
			CHECK(mk_open(all[seen]) == MK_CLOSED && mk_copy(all[by], all[seen]) == MK_CLOSED &&
				mk_copy(&other, all[seen]) == MK_CLOSED);
		}
	return 0;
}

/* ---- a copy of a handle that doesn't wait is one that does */

static void *list_often(void *stop)
{
	static uint8_t lines[8192 * 64];
	mk_info own;
	while (!__atomic_load_n((bool *)stop, __ATOMIC_ACQUIRE))
		if (mk_history(&h, 0, lines, sizeof lines, &own) != MK_DONE)
			return NULL;
	return stop;
}

static mk_handle copied;

static void *list_copies(void *stop)
{
	static uint8_t lines[8192 * 64];
	mk_info own;
	while (!__atomic_load_n((bool *)stop, __ATOMIC_ACQUIRE))
		if (mk_history(&copied, 0, lines, sizeof lines, &own) != MK_DONE)
			return NULL;
	return stop;
}

static int copy_of_a_quick_handle(void)
{
	enum { RECORDS = 3000 };
	mk_handle quick, copy_quick, gone = { 0 }, stale;
	pthread_t threads[2];
	void *good;
	static bool stop;
	int blocked = 0;
	mk_nonblocking(&h, &quick);
	for (int i = 0; i < RECORDS; i++)
		CHECK(done(mk_write(&h, "/", "cgroup.max.depth", i % 2 == 0 ? "5" : "6", &info)));
	/* a handle of an engine that is closed; the copy takes its place */
	CHECK(mk_open(&gone) == MK_DONE);
	mk_nonblocking(&gone, &stale);
	CHECK(mk_close(&gone) == MK_DONE);
	CHECK(mk_copy(&quick, &copied) == MK_DONE && mk_depth(&copied, &size) == MK_DONE && size == RECORDS);
	mk_nonblocking(&copied, &copy_quick);
	mk_nonblocking(&copy_quick, &copy_quick); /* once more changes nothing */
	CHECK(pthread_create(&threads[0], NULL, list_often, &stop) == 0 &&
		pthread_create(&threads[1], NULL, list_copies, &stop) == 0);
	while (blocked < 10) {
		CHECK(mk_depth(&copied, &size) == MK_DONE && size == RECORDS); /* waits, also while the other lists */
		if (mk_depth(&copy_quick, &size) != MK_WOULD_BLOCK)
			continue;
		blocked++;
		/* a call on another engine, as now, keeps it neither from being closed nor from being opened again */
		gone = stale;
		CHECK(mk_depth(&gone, &size) == MK_CLOSED && mk_close(&gone) == MK_CLOSED);
		CHECK(mk_open(&gone) == MK_DONE && mk_close(&gone) == MK_DONE);
	}
	__atomic_store_n(&stop, true, __ATOMIC_RELEASE);
	for (int i = 0; i < 2; i++)
		CHECK(pthread_join(threads[i], &good) == 0 && good != NULL);
	CHECK(mk_close(&copied) == MK_DONE && mk_depth(&copy_quick, &size) == MK_CLOSED && done(mk_undo_to(&h, 0, &info)) &&
		info.count == RECORDS);
	return 0;
}

/* ---- a program's own constructor may run before the library's, and opens all the same */

static mk_handle early;
static uint32_t early_status = MK_BUSY;

__attribute__((constructor)) static void open_early(void)
{
	early_status = mk_open(&early);
}

static int opened_early(void)
{
	int status;
	CHECK(early_status == MK_DONE && done(mk_mkdir(&early, "/a", &info)));
	pid_t pid = fork();
	CHECK(pid >= 0);
	if (pid == 0)
		_exit(mk_has_group(&early, PATH("/a"), &info) == MK_DONE && mk_close(&early) == MK_DONE ? 0 : 1);
	CHECK(waitpid(pid, &status, 0) == pid && WIFEXITED(status) && WEXITSTATUS(status) == 0);
	CHECK(mk_close(&early) == MK_DONE);
	return 0;
}

/* ---- two engines have nothing in common */

static int two_engines(void)
{
	mk_handle other = { 0 };
	uint64_t ours, theirs;
	CHECK(mk_open(&other) == MK_DONE && mk_changes(&h, &ours) == MK_DONE && mk_changes(&other, &theirs) == MK_DONE &&
		theirs == 0);
	CHECK(done(mk_mkdir(&other, "/a", &info)) && mk_has_group(&h, PATH("/a"), &info) == MK_REFUSED);
	CHECK(mk_wait(&h, ours, 1, &value) == MK_TIMED_OUT && mk_wait(&other, theirs, 0, &value) == MK_DONE && value == 1);
	CHECK(done(mk_mkdir(&h, "/a", &info)) && done(mk_fail(&other, "/a", 1, EIO, &info)) &&
		done(mk_current(&h, "/a", &value, &info)) && mk_clear_faults(&h, &size) == MK_DONE && size == 0);
	CHECK(failed(mk_current(&other, "/a", &value, &info), EIO) && done(mk_fork(&other, 1, 2, &info)) &&
		mk_where(&h, 2, text, OUT, &info) == MK_REFUSED);
	CHECK(mk_forget(&other) == MK_DONE && mk_depth(&h, &size) == MK_DONE && size == 1);
	CHECK(mk_close(&other) == MK_DONE && done(mk_undo_to(&h, 0, &info)) && info.count == 1);
	return 0;
}

/* ---- the child of a fork has a copy of everything, faults and changes too */

static int child(int from_parent, int to_parent)
{
	uint64_t changes;
	char byte = 0;
	if (mk_changes(&h, &changes) != MK_DONE || changes == 0 || mk_depth(&h, &size) != MK_DONE || size != 2)
		return 1;
	if (!failed(mk_current(&h, "/a", &value, &info), ENOSPC) || mk_clear_faults(&h, &size) != MK_DONE || size != 1)
		return 2;
	if (mk_mkdir(&h, "/child", &info) != MK_DONE || write(to_parent, "x", 1) != 1 || read(from_parent, &byte, 1) != 1)
		return 3;
	/* the parent has made a group meanwhile */
	if (mk_has_group(&h, PATH("/parent"), &info) != MK_REFUSED || mk_changes(&h, &value) != MK_DONE ||
		value != changes + 1)
		return 4;
	if (mk_undo_to(&h, 0, &info) != MK_DONE || info.count != 3 || mk_close(&h) != MK_DONE)
		return 5;
	return mk_open(&h) == MK_DONE && mk_close(&h) == MK_DONE ? 0 : 6;
}

static int forked(void)
{
	int down[2], up[2], status;
	char byte = 0;
	CHECK(pipe(down) == 0 && pipe(up) == 0);
	CHECK(done(mk_mkdir(&h, "/a", &info)) && done(mk_mkdir(&h, "/b", &info)) &&
		done(mk_fail(&h, "/a", 1, ENOSPC, &info)) && done(mk_fail(&h, "/b", 7, EIO, &info)));
	pid_t pid = fork();
	CHECK(pid >= 0);
	if (pid == 0) {
		alarm(PATIENCE_SECONDS);
		_exit(child(down[0], up[1]));
	}
	CHECK(close(up[1]) == 0 && read(up[0], &byte, 1) == 1 && done(mk_mkdir(&h, "/parent", &info)) &&
		mk_has_group(&h, PATH("/child"), &info) == MK_REFUSED && write(down[1], "x", 1) == 1);
	CHECK(waitpid(pid, &status, 0) == pid && WIFEXITED(status) && WEXITSTATUS(status) == 0);
	/* the child took its own faults and records alone */
	CHECK(failed(mk_current(&h, "/a", &value, &info), ENOSPC) && mk_clear_faults(&h, &size) == MK_DONE && size == 1);
	CHECK(done(mk_undo_to(&h, 0, &info)) && info.count == 3);
	return 0;
}

/* ---- whoever closes it, each call by each handle says so, and changes nothing */

#define CALL(name, call)                \
	static uint32_t name(mk_handle *it) \
	{                                   \
		return call;                    \
	}
static uint32_t pids[2];
static mk_text one_text;
CALL(by_line, mk_line(it, 1, PATH("mkdir /x"), out, OUT, &info))
CALL(by_words, mk_words(it, 1, "mkdir/x", (const size_t[]){ 5, 2 }, 2, out, OUT, &info))
CALL(by_undo, mk_undo(it, 1, out, OUT, &info))
CALL(by_undo_to, mk_undo_to(it, 0, &info))
CALL(by_history, mk_history(it, 0, out, OUT, &info))
CALL(by_groups, mk_groups(it, out, OUT, &info))
CALL(by_children, mk_children(it, PATH("/"), out, OUT, &info))
CALL(by_subtree, mk_subtree(it, PATH("/"), out, OUT, &info))
CALL(by_has_group, mk_has_group(it, PATH("/"), &info))
CALL(by_mkdir, mk_mkdir(it, "/x", &info))
CALL(by_rmdir, mk_rmdir(it, "/a", &info))
CALL(by_fork, mk_fork(it, 1, 2, &info))
CALL(by_exit, mk_exit(it, 1, &info))
CALL(by_attach, mk_attach(it, "/a", 1, &info))
CALL(by_write, mk_write(it, "/a", "pids.max", "5", &info))
CALL(by_kill, mk_kill(it, "/a", &info))
CALL(by_read, mk_read(it, "/a", "pids.max", text, OUT, &info))
CALL(by_where, mk_where(it, 1, text, OUT, &info))
CALL(by_processes, mk_processes(it, "/", pids, 2, &info))
CALL(by_many, mk_read_many(it, "/a\0pids.max", 1, &one_text, text, OUT, &info))
CALL(by_wait_file, mk_wait_file(it, "/a", "pids.max", "", MK_FOREVER, text, OUT, &info))
CALL(by_fail, mk_fail(it, "/a", 1, EIO, &info))
CALL(by_vanish, mk_vanish(it, "/a", 1, &info))
CALL(by_get, mk_get(it, "/a", "cgroup.type", text, OUT, &info))
CALL(by_put, mk_put(it, "/a", "pids.max", "5", 1, 1, &info))
#define ROW(name)   \
	{               \
#name, name \
	}
static const struct {
	const char *name;
	uint32_t (*make)(mk_handle *it);
} calls[] = { ROW(by_line), ROW(by_words), ROW(by_undo), ROW(by_undo_to), ROW(by_history), ROW(by_groups),
	ROW(by_children), ROW(by_subtree), ROW(by_has_group), ROW(by_mkdir), ROW(by_rmdir), ROW(by_fork), ROW(by_exit),
	ROW(by_attach), ROW(by_write), ROW(by_kill), ROW(by_read), ROW(by_where), ROW(by_processes), ROW(by_many),
	ROW(by_wait_file), ROW(by_fail), ROW(by_vanish), ROW(by_get), ROW(by_put) };

static int closed(void)
{
	mk_handle same = h, quick;
	mk_nonblocking(&h, &quick);
	mk_handle *const all[] = { &h, &same, &quick };
	enum { ALL = sizeof all / sizeof *all };
	for (int by = 0; by < ALL; by++) {
		CHECK(done(mk_mkdir(all[by], "/a", &info)) && mk_close(all[by]) == MK_DONE);
		for (int again = 0; again < 2; again++) {
			for (int seen = again; seen < ALL; seen++) {
				for (size_t i = 0; i < sizeof calls / sizeof *calls; i++) {
					memset(&info, 0xa5, sizeof info);
					CHECK(calls[i].make(all[seen]) == MK_CLOSED && info.error == EBADF && info.code == 0);
					CHECK(info.len == 0 && info.count == 0 && info.needed == 0);
				}
				for (size_t i = 0; i < GROUP_NUMBERS; i++) {
					memset(&info, 0xa5, sizeof info);
					CHECK(ask_number(&group_numbers[i], all[seen], "/a", &value, &info) == MK_CLOSED && value == 0);
					CHECK(info.error == EBADF && info.code == 0);
					CHECK(info.len == 0 && info.count == 0 && info.needed == 0);
				}
				CHECK(mk_depth(all[seen], &size) == MK_CLOSED && size == 0 && mk_forget(all[seen]) == MK_CLOSED);
				CHECK(mk_changes(all[seen], &value) == MK_CLOSED && value == 0 && mk_close(all[seen]) == MK_CLOSED);
				CHECK(mk_wait(all[seen], 0, MK_FOREVER, &value) == MK_CLOSED && value == 0);
				CHECK(mk_clear_faults(all[seen], &size) == MK_CLOSED && size == 0);
			}
			/* a new engine is not that of the others */
			if (again == 0)
				CHECK(mk_open(&h) == MK_DONE && mk_depth(&h, &size) == MK_DONE && size == 0);
		}
		same = h;
		mk_nonblocking(&h, &quick);
	}
	return 0;
}

int main(void)
{
	int (*const parts[])(void) = { opened_early, one_engine, copy_of_a_quick_handle, two_engines, forked, closed };
	if (mk_open(&h) != MK_DONE)
		return 1;
	alarm(PATIENCE_SECONDS);
	return run_and_close(parts, sizeof parts / sizeof *parts);
}
