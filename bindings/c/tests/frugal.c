/* Calls that need no memory ask for none: each allocation is counted, also one whose refusal a call would ignore. A line whose
   command needs none asks for the memory of its answer's text alone. And a thread needs no more stack than makhloeum.h says. Link with
   -Wl,--wrap=malloc,--wrap=calloc,--wrap=realloc. Exits with the number of the first check that fails, or 0, and prints how many held. */
#include "check.h"
#include <pthread.h>

void *__real_malloc(size_t size);
void *__real_calloc(size_t count, size_t size);
void *__real_realloc(void *at, size_t size);
void *__wrap_malloc(size_t size);
void *__wrap_calloc(size_t count, size_t size);
void *__wrap_realloc(void *at, size_t size);

static long asked; /* allocations so far */

void *__wrap_malloc(size_t size)
{
	asked++;
	return __real_malloc(size);
}

void *__wrap_calloc(size_t count, size_t size)
{
	asked++;
	return __real_calloc(count, size);
}

void *__wrap_realloc(void *at, size_t size)
{
	asked++;
	return __real_realloc(at, size);
}

enum {
	FORKED = 40, /* the processes and records for which the tables have room */
	SHORT_TEXT = 1, /* allocations for an answer of up to eight bytes */
	REMOVED = 1, /* allocations for the attributes that the record of a removal keeps */
};

static uint8_t answer[64];

/* The allocations of a line that is done; -1 if it isn't. */
static long asks(const char *line)
{
	asked = 0;
	uint32_t status = mk_line(&h, 1, (const uint8_t *)line, strlen(line), answer, sizeof answer, &info);
	return status == MK_DONE ? asked : -1;
}

/* The allocations of the line's undo. */
static long undo_asks(const char *line)
{
	return asks(line) > 0 ? asks("undo") : -1;
}

/* Makes room in the tables: they keep it when processes and records are gone. */
static int room(void)
{
	CHECK(done(mk_mkdir(&h, "/a", &info)) && done(mk_mkdir(&h, "/b", &info)));
	size_t depth;
	CHECK(done(mk_depth(&h, &depth)));
	for (int64_t pid = 2; pid < 2 + FORKED; pid++)
		CHECK(done(mk_fork(&h, 1, pid, &info)));
	CHECK(done(mk_undo_to(&h, depth, &info)));
	return 0;
}

static int commands(void)
{
	static const char *const lines[] = { "fork 1 2", "fork 1 3", "exit 2", "write /a pids.max 9",
		"write /a cgroup.max.depth 9", "write /a cgroup.max.descendants 9", "write /a cgroup.kill 1", "exit 3" };
	for (size_t i = 0; i < sizeof lines / sizeof *lines; i++)
		CHECK(asks(lines[i]) == SHORT_TEXT);
	CHECK(asks("rmdir /b") == SHORT_TEXT + REMOVED);
	CHECK(asks("mkdir /b") > SHORT_TEXT); /* a group's memory */
	return 0;
}

/* Undos whose answers take the same memory, since their commands have the same parts: none asks for more. */
static int undos(void)
{
	CHECK(asks("fork 1 100") > 0);
	long of_fork = undo_asks("fork 1 2"), of_mkdir = undo_asks("mkdir /c"), of_exit = undo_asks("exit 100");
	CHECK(of_fork > 0 && of_fork == of_mkdir && of_fork == of_exit);
	long of_limit = undo_asks("write /a pids.max 3"), of_kill = undo_asks("write /a cgroup.kill 1");
	CHECK(of_limit > 0 && of_limit == of_kill);
	CHECK(asks("write /a pids.max 0") > 0 && asks("write /a cgroup.procs 1") > 0);
	CHECK(mk_fork(&h, 1, 2, &info) == MK_REFUSED && info.code == MK_PIDS_MAX && asks("undo") == of_fork);
	return 0;
}

/* ---- a thread with little stack: what goes deepest are groups that vanish with all levels below them */

enum { LEVELS = 32, NAME = 127, STACK = 128 * 1024 }; /* a name with its slash */
static char path[LEVELS * NAME + 1], text[64];
static mk_text texts[1];
static mk_handle other;

#define CALL(name, call)       \
	static uint32_t name(void) \
	{                          \
		return call;           \
	}
CALL(get, mk_get(&h, path, "cgroup.type", text, sizeof text, &info))
CALL(put, mk_put(&h, path, "pids.max", "5", 1, 1, &info))
CALL(make, mk_mkdir(&h, path, &info))
CALL(many, mk_read_many(&h, path, 1, texts, text, sizeof text, &info))
CALL(undo_all, mk_undo_to(&h, 0, &info))
CALL(copy, mk_copy(&h, &other))
static const struct {
	uint32_t (*make)(void);
	uint32_t status;
} deep_calls[] = { { get, MK_REFUSED }, { put, MK_REFUSED }, { make, MK_DONE }, { many, MK_DONE },
	{ undo_all, MK_DONE }, { copy, MK_DONE } };

/* A group with all levels below it, which vanishes at the next call that names its path. */
static bool is_deep(void)
{
	memset(path, 'x', sizeof path - 1);
	for (size_t level = 1; level <= LEVELS; level++) {
		path[(level - 1) * NAME] = '/';
		path[level * NAME] = 0;
		if (!done(mk_mkdir(&h, path, &info)))
			return false;
		path[level * NAME] = 'x';
	}
	path[NAME] = 0;
	memcpy(path + NAME + 1, "pids.max", sizeof "pids.max"); /* for mk_read_many */
	return done(mk_vanish(&h, path, 1, &info));
}

static void *run(void *call)
{
	uint32_t status = deep_calls[*(size_t *)call].make();
	return status == deep_calls[*(size_t *)call].status ? call : NULL;
}

static int with_little_stack(void)
{
	pthread_attr_t little;
	pthread_t thread;
	void *good;
	size_t left;
	CHECK(pthread_attr_init(&little) == 0 && pthread_attr_setstacksize(&little, STACK) == 0);
	for (size_t i = 0; i < sizeof deep_calls / sizeof *deep_calls; i++) {
		CHECK(is_deep() && pthread_create(&thread, &little, run, &i) == 0);
		CHECK(pthread_join(thread, &good) == 0 && good != NULL);
		mk_close(&other);
		CHECK(mk_clear_faults(&h, &left) == MK_DONE && done(mk_undo_to(&h, 0, &info)));
	}
	CHECK(pthread_attr_destroy(&little) == 0);
	return 0;
}

static int others(void)
{
	size_t number;
	uint64_t changes;
	asked = 0;
	CHECK(mk_path_fault((const uint8_t *)"/a/", 3, &number) == MK_EMPTY_NAME && asked == 0);
	CHECK(done(mk_depth(&h, &number)) && number > 0 && asked == 0);
	CHECK(done(mk_changes(&h, &changes)) && changes > 0 && asked == 0);
	CHECK(mk_wait(&h, changes, 1, &changes) == MK_TIMED_OUT && asked == 0);
	CHECK(done(mk_clear_faults(&h, &number)) && number == 0 && asked == 0);
	CHECK(done(mk_forget(&h)) && asked == 0);
	CHECK(done(mk_close(&h)) && asked == 0);
	return 0;
}

int main(void)
{
	int (*const parts[])(void) = { with_little_stack, room, commands, undos, others };
	if (mk_open(&h) != MK_DONE)
		return 1;
	return run_all(parts, sizeof parts / sizeof *parts);
}
