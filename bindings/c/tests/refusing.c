/* Each allocation of each call is refused in turn: the call returns MK_OUT_OF_MEMORY, and everything is as before. Then it is made
   again with memory, and does what it should. `calls` lists the calls, and `frugal` those that need no memory: they are made with
   every allocation refused. Link with -Wl,--wrap=malloc,--wrap=calloc,--wrap=realloc. Exits with 1 and names the first call that
   does otherwise, or with 0, and prints how many allocations were refused. */
#include "makhloeum.h"
#include <stdio.h>
#include <stdlib.h>
#include <string.h>

void *__real_malloc(size_t size);
void *__real_calloc(size_t count, size_t size);
void *__real_realloc(void *at, size_t size);
void *__wrap_malloc(size_t size);
void *__wrap_calloc(size_t count, size_t size);
void *__wrap_realloc(void *at, size_t size);

static long left = -1; /* allocations until one is refused; below 0 none is */
static bool without_memory;

static bool refuses(void)
{
	return without_memory || (left >= 0 && left-- == 0);
}

void *__wrap_malloc(size_t size)
{
	return refuses() ? NULL : __real_malloc(size);
}
void *__wrap_calloc(size_t count, size_t size)
{
	return refuses() ? NULL : __real_calloc(count, size);
}
void *__wrap_realloc(void *at, size_t size)
{
	return refuses() ? NULL : __real_realloc(at, size);
}

/* A path takes memory if it has more than 22 bytes, and a text of /many if it is longer than the library's own buffer. */
#define LONG "/a-group-with-a-long-name-that-takes-memory"
enum { MANY = 1500, FIRST = 1000 };

static mk_handle h, other;
static mk_info info;
static uint8_t out[65536];
static size_t base, mark; /* the depths before a call, without and with what it needs */
static long refused;

/* what calls return besides bytes and info */
static uint64_t value;
static bool populated;
static uint32_t pids[MANY];
static mk_text texts[3];

static uint32_t ask(const char *line)
{
	return mk_line(&h, 1, (const uint8_t *)line, strlen(line), out, sizeof out, &info);
}

static void must(const char *line)
{
	if (ask(line) > MK_FAULT)
		abort();
}

static size_t depth(void)
{
	size_t found;
	if (mk_depth(&h, &found) != MK_DONE)
		abort();
	return found;
}

/* ---- everything that a hierarchy tells */

struct story {
	size_t len;
	uint8_t bytes[1 << 17];
};

static struct story start, before, after, now;

static void add(struct story *it, const void *bytes, size_t len)
{
	if (sizeof it->bytes - it->len < len)
		abort();
	memcpy(it->bytes + it->len, bytes, len);
	it->len += len;
}

static void tell(const mk_handle *from, struct story *it)
{
	static uint8_t groups[4096], text[65536];
	mk_handle handle = *from;
	mk_info told;
	it->len = 0;
	if (mk_groups(&handle, groups, sizeof groups, &told) != MK_DONE)
		abort();
	size_t len = told.len;
	add(it, groups, len);
	for (const char *path = (const char *)groups; path < (const char *)groups + len; path += strlen(path) + 1)
		for (size_t i = 0; mk_file_at(i) != NULL; i++) {
			uint32_t status = mk_read(&handle, path, mk_file_at(i)->name, (char *)text, sizeof text, &told);
			if (status > MK_FAULT)
				abort();
			add(it, text, told.len);
		}
	if (mk_history(&handle, 0, text, sizeof text, &told) != MK_DONE)
		abort();
	add(it, text, told.len);
}

static bool is_same(const struct story *a, const struct story *b)
{
	return a->len == b->len && memcmp(a->bytes, b->bytes, a->len) == 0;
}

static bool tells(const struct story *it)
{
	tell(&h, &now);
	return is_same(&now, it);
}

/* ---- the calls */

struct call {
	const char *name;
	void (*prepare)(void); /* makes what it needs, if anything; that is undone afterwards */
	void (*plan)(void); /* plans a fault that it meets */
	uint32_t (*make)(void);
	uint32_t status; /* with memory, and what it returns and leaves then: bytes, a number, records, faults */
	const char *text;
	size_t len;
	uint64_t value;
	const char *records;
	size_t faults;
	bool (*gives)(void); /* what else holds with memory */
	bool (*keeps)(
		void); /* what else holds without memory; if some commands may be recorded or undone then, all that holds */
	bool partly;
};

#define BYTES(bytes) .text = (bytes), .len = sizeof(bytes)
#define TEXT(bytes) .text = (bytes), .len = sizeof(bytes) - 1
#define PATH(path) (const uint8_t *)(path), sizeof(path) - 1
#define CALL(name, call)       \
	static uint32_t name(void) \
	{                          \
		return call;           \
	}

CALL(children, mk_children(&h, PATH(LONG), out, sizeof out, &info))
CALL(groups, mk_groups(&h, out, sizeof out, &info))
CALL(subtree, mk_subtree(&h, PATH(LONG), out, sizeof out, &info))
CALL(history, mk_history(&h, 0, out, sizeof out, &info))
CALL(has_group, mk_has_group(&h, PATH(LONG), &info))
CALL(has_no_group, mk_has_group(&h, PATH(LONG "/none"), &info))
CALL(make_group, mk_mkdir(&h, LONG "/c", &info))
CALL(remove_group, mk_rmdir(&h, LONG "/c", &info))
CALL(fork_there, mk_fork(&h, 2, 20, &info))
CALL(fork_too_many, mk_fork(&h, 3, 20, &info))
CALL(exit_there, mk_exit(&h, 2, &info))
CALL(attach, mk_attach(&h, LONG, 1, &info))
CALL(write_limit, mk_write(&h, LONG, "cgroup.max.depth", "5", &info))
CALL(kill_all, mk_kill(&h, LONG, &info))
CALL(undo, mk_undo(&h, 1, out, sizeof out, &info))
CALL(where, mk_where(&h, 2, (char *)out, sizeof out, &info))
CALL(current, mk_current(&h, LONG, &value, &info))
CALL(peak, mk_peak(&h, LONG, &value, &info))
CALL(limit, mk_limit(&h, LONG, &value, &info))
CALL(put_limit, mk_put(&h, LONG, "pids.max", "0x10", 4, 1, &info))
CALL(put_self, mk_put(&h, LONG, "cgroup.procs", "0", 1, 3, &info))
CALL(put_constant, mk_put(&h, LONG, "cgroup.type", "domain", 6, 1, &info))
CALL(put_freeze, mk_put(&h, LONG, "cgroup.freeze", "1", 1, 1, &info))
CALL(fail, mk_fail(&h, LONG, 1, EIO, &info))
CALL(vanish, mk_vanish(&h, LONG, 1, &info))
CALL(read_one, mk_read(&h, LONG, "cgroup.procs", (char *)out, sizeof out, &info))
CALL(words, mk_words(&h, 1, "mkdir" LONG "/c", (const size_t[]){ 5, sizeof LONG + 1 }, 2, out, sizeof out, &info))
CALL(wait_file, mk_wait_file(&h, LONG, "cgroup.procs", "", 0, (char *)out, sizeof out, &info))
CALL(wait_file_shortly, mk_wait_file(&h, LONG, "cgroup.procs", "2\n5\n", 1, (char *)out, sizeof out, &info))
CALL(processes, mk_processes(&h, LONG, pids, MANY, &info))

static uint32_t is_populated(void)
{
	uint32_t status = mk_populated(&h, LONG, &populated, &info);
	value = populated;
	return status;
}

static void make_c(void)
{
	must("mkdir " LONG "/c");
}

/* ---- texts that are longer than the library's own buffer */

static char many[MANY * 5 + 1];

#define READ_MANY(size) mk_read(&h, "/many", "cgroup.procs", (char *)out, size, &info)
CALL(read_long, READ_MANY(sizeof out))
CALL(read_exactly, READ_MANY(sizeof many))
CALL(read_too_little, READ_MANY(sizeof many - 1))
CALL(processes_long, mk_processes(&h, "/many", pids, MANY, &info))
CALL(processes_too_few, mk_processes(&h, "/many", pids, MANY - 1, &info))
CALL(wait_file_long, mk_wait_file(&h, "/many", "cgroup.procs", "", 0, (char *)out, sizeof out, &info))

static const char names[] = LONG "\0pids.max\0/many\0cgroup.procs\0" LONG "/none\0pids.max";

CALL(read_many, mk_read_many(&h, names, 3, texts, (char *)out, sizeof out, &info))
CALL(read_many_exactly, mk_read_many(&h, names, 3, texts, (char *)out, sizeof "9\n" + sizeof many + 1, &info))
CALL(read_many_too_little, mk_read_many(&h, names, 3, texts, (char *)out, sizeof "9\n" + sizeof many, &info))

static bool is_many(void)
{
	return info.len == sizeof many - 1 && memcmp(out, many, sizeof many) == 0;
}

static bool has_many(void)
{
	return info.count == MANY && pids[0] == FIRST && pids[MANY - 1] == FIRST + MANY - 1;
}

static bool has_both(void)
{
	return info.count == 2 && pids[0] == 2 && pids[1] == 5;
}

static bool needs_many(void)
{
	return info.needed == sizeof many;
}

static bool needs_many_pids(void)
{
	return info.needed == MANY;
}

static bool needs_all(void)
{
	return info.needed == sizeof "9\n" + sizeof many + 1;
}

static bool has_texts(void)
{
	return info.count == 3 && texts[0].status == MK_DONE && memcmp(out + texts[0].at, "9\n", sizeof "9\n") == 0 &&
		texts[1].status == MK_DONE && texts[1].len == sizeof many - 1 &&
		memcmp(out + texts[1].at, many, sizeof many) == 0 && texts[2].status == MK_REFUSED &&
		texts[2].code == MK_NO_GROUP;
}

static bool is_missing(void)
{
	return info.code == MK_NO_GROUP;
}

static bool is_too_many(void)
{
	return info.code == MK_PIDS_MAX;
}

/* ---- other handles */

CALL(open_other, mk_open(&other))
CALL(copy, mk_copy(&h, &other))

static bool is_open(void)
{
	return mk_close(&other) == MK_DONE;
}

static bool is_copy(void)
{
	tell(&other, &now);
	return is_same(&now, &before) && mk_close(&other) == MK_DONE;
}

static bool is_not_open(void)
{
	return mk_close(&other) == MK_CLOSED;
}

/* ---- a group that vanishes: some of it may be missing then */

#define VANISHED "write " LONG " cgroup.kill 1\nrmdir " LONG "/b\nrmdir " LONG "\n"

static void plan_vanish(void)
{
	if (vanish() != MK_DONE)
		abort();
}

static bool vanished_in_part(void)
{
	return mk_undo_to(&h, mark, &info) == MK_DONE && tells(&before);
}

static bool has_one_text(void)
{
	return texts[0].code == MK_NO_GROUP && texts[1].status == MK_DONE && texts[2].code == MK_NO_GROUP;
}

/* ---- undoing several commands: those that were undone stay undone */

static const char *const steps[] = { "mkdir " LONG "/c", "fork 2 20", "write " LONG "/c cgroup.procs 20",
	"write " LONG " pids.max 5", "fork 3 21", "write " LONG " cgroup.kill 1", "rmdir " LONG "/c", "exit 3" };
enum { STEPS = sizeof steps / sizeof *steps };
static struct story stories[STEPS + 1];
static bool stopped_after[STEPS];

static void take_steps(void)
{
	for (size_t i = 0; i < STEPS; i++) {
		tell(&h, &stories[i]);
		must(steps[i]);
	}
	tell(&h, &stories[STEPS]);
	if (depth() != base + STEPS)
		abort();
}

CALL(undo_steps, mk_undo_to(&h, base, &info))

static bool undid_some(void)
{
	size_t undone = info.count;
	if (undone >= STEPS || depth() != base + STEPS - undone || !tells(&stories[STEPS - undone]))
		return false;
	stopped_after[undone] = true;
	return undo_steps() == MK_DONE && info.count == STEPS - undone && tells(&stories[0]);
}

static bool undid_all(void)
{
	for (size_t i = 0; i < STEPS; i++)
		if (!stopped_after[i])
			return false;
	return info.count == STEPS && tells(&stories[0]);
}

/* ---- lines: each after all before it */

static const char *const lines[] = { "mkdir /a", "mkdir /a/b", "mkdir " LONG, "fork 1 2", "fork 1 3",
	"write /a/b cgroup.procs 2", "write " LONG " cgroup.procs 3", "write /a cgroup.max.depth 5",
	"write /a/b pids.max 1", "cat /a pids.current", "cat /a cgroup.stat", "where 3", "fork 2 9", "fork 2 9", "undo",
	"rmdir /a", "rmdir /c", "undo", "undo", "write /a cgroup.kill 1", "undo", "exit 3", "undo",
	"write /a cgroup.procs 3", "undo", "mkdir a", "cat /a x", "undo", "rmdir " LONG, "undo", "undo", "undo", "undo",
	"undo", "undo", "undo", "undo" };
static size_t line;

static void take_lines(void)
{
	for (size_t i = 0; i < line; i++)
		must(lines[i]);
}

CALL(take_line, ask(lines[line]))

static bool is_after(void)
{
	return tells(&after);
}

/* ---- the table */

static const struct call calls[] = {
	{ "mk_open", .make = open_other, .gives = is_open, .keeps = is_not_open },
	{ "mk_copy", .make = copy, .gives = is_copy, .keeps = is_not_open },
	{ "mk_undo", .prepare = make_c, .make = undo, TEXT("1 ok\n| mkdir " LONG "/c\n") },
	{ "mk_undo_to", .prepare = take_steps, .make = undo_steps, .gives = undid_all, .keeps = undid_some,
		.partly = true },
	{ "mk_children", .make = children, BYTES("b") },
	{ "mk_groups", .make = groups, BYTES("/\0/a\0" LONG "\0" LONG "/b\0/many") },
	{ "mk_subtree", .make = subtree, BYTES(LONG "\0" LONG "/b") },
	{ "mk_history", .prepare = make_c, .make = history, TEXT("exit 4\nmkdir " LONG "/c\n") },
	{ "mk_has_group", .make = has_group },
	{ "mk_has_group, missing", .make = has_no_group, .status = MK_REFUSED, .gives = is_missing },
	{ "mk_mkdir", .make = make_group, .records = "mkdir " LONG "/c\n" },
	{ "mk_rmdir", .prepare = make_c, .make = remove_group, .records = "rmdir " LONG "/c\n" },
	{ "mk_fork", .make = fork_there, .records = "fork 2 20\n" },
	{ "mk_fork, refused and counted", .make = fork_too_many, .status = MK_REFUSED, .gives = is_too_many,
		.records = "fork 3 20\n" },
	{ "mk_exit", .make = exit_there, .records = "exit 2\n" },
	{ "mk_attach", .make = attach, .records = "write " LONG " cgroup.procs 1\n" },
	{ "mk_write", .make = write_limit, .records = "write " LONG " cgroup.max.depth 5\n" },
	{ "mk_kill", .make = kill_all, .records = "write " LONG " cgroup.kill 1\n" },
	{ "mk_read", .make = read_one, TEXT("2\n5\n") },
	{ "mk_read, long", .make = read_long, .gives = is_many },
	{ "mk_read, long, exactly enough", .make = read_exactly, .gives = is_many },
	{ "mk_read, long, too little", .make = read_too_little, .status = MK_TOO_SMALL, .gives = needs_many },
	{ "mk_words", .make = words, .records = "mkdir " LONG "/c\n" },
	{ "mk_wait_file", .make = wait_file, TEXT("2\n5\n") },
	{ "mk_wait_file, long", .make = wait_file_long, .gives = is_many },
	{ "mk_wait_file, too late", .make = wait_file_shortly, .status = MK_TIMED_OUT },
	{ "mk_where", .make = where, TEXT("0::" LONG "\n") },
	{ "mk_current", .make = current, .value = 3 },
	{ "mk_peak", .make = peak, .value = 4 },
	{ "mk_limit", .make = limit, .value = 9 },
	{ "mk_populated", .make = is_populated, .value = 1 },
	{ "mk_processes", .make = processes, .gives = has_both },
	{ "mk_processes, long", .make = processes_long, .gives = has_many },
	{ "mk_processes, long, too few", .make = processes_too_few, .status = MK_TOO_SMALL, .gives = needs_many_pids },
	{ "mk_read_many", .make = read_many, .gives = has_texts },
	{ "mk_read_many, exactly enough", .make = read_many_exactly, .gives = has_texts },
	{ "mk_read_many, too little", .make = read_many_too_little, .status = MK_TOO_SMALL, .gives = needs_all },
	{ "mk_put, a limit", .make = put_limit, .records = "write " LONG " pids.max 16\n" },
	{ "mk_put, the caller", .make = put_self, .records = "write " LONG " cgroup.procs 3\n" },
	{ "mk_put, a constant", .make = put_constant },
	{ "mk_fail", .make = fail, .faults = 1 },
	{ "mk_vanish", .make = vanish, .faults = 1 },
	{ "mk_has_group, vanishing", .plan = plan_vanish, .make = has_group, .status = MK_REFUSED, .gives = is_missing,
		.records = VANISHED, .keeps = vanished_in_part, .partly = true },
	{ "mk_read_many, vanishing", .plan = plan_vanish, .make = read_many, .gives = has_one_text, .records = VANISHED,
		.keeps = vanished_in_part, .partly = true },
	{ "mk_put, vanishing", .plan = plan_vanish, .make = put_limit, .status = MK_REFUSED, .gives = is_missing,
		.records = VANISHED, .keeps = vanished_in_part, .partly = true },
	/* the last one: an undo doesn't thaw */
	{ "mk_put, the freezer", .make = put_freeze },
};

static size_t size;

CALL(find_fault, mk_path_fault(PATH(LONG "/"), &size))
CALL(tell_depth, mk_depth(&h, &size))
CALL(tell_changes, mk_changes(&h, &value))
CALL(wait_shortly, mk_wait(&h, value, 1, &value))
CALL(clear_faults, mk_clear_faults(&h, &size))
CALL(forget, mk_forget(&h))
CALL(close_it, mk_close(&h))

static const struct {
	const char *name;
	uint32_t (*make)(void);
	uint32_t status;
} frugal[] = {
	{ "mk_path_fault", find_fault, MK_EMPTY_NAME },
	{ "mk_depth", tell_depth, MK_DONE },
	{ "mk_changes", tell_changes, MK_DONE },
	{ "mk_wait", wait_shortly, MK_TIMED_OUT },
	{ "mk_clear_faults", clear_faults, MK_DONE },
	{ "mk_forget", forget, MK_DONE },
	{ "mk_close", close_it, MK_DONE },
};

/* ---- refusing */

static bool succeeds(const struct call *it, uint32_t status)
{
	size_t faults;
	const char *records = it->records != NULL ? it->records : "";
	if (status != it->status || mk_clear_faults(&h, &faults) != MK_DONE || faults != it->faults || value != it->value)
		return false;
	if (it->text != NULL && (info.len != it->len || memcmp(out, it->text, it->len) != 0))
		return false;
	if (it->gives != NULL && !it->gives())
		return false;
	if (mk_history(&h, mark, out, sizeof out, &info) != MK_DONE)
		return false;
	return info.len == strlen(records) && memcmp(out, records, info.len) == 0;
}

static uint32_t make(const struct call *it)
{
	info = (mk_info){ .error = ENOMEM }; /* some calls have none */
	value = it->value > 0 ? it->value + 1 : 0;
	return it->make();
}

static bool fails(const struct call *it, uint32_t status)
{
	size_t faults;
	if (status != MK_OUT_OF_MEMORY || info.len != 0 || info.needed != 0 || info.code != 0 || info.error != ENOMEM ||
		value != 0)
		return false;
	if (mk_clear_faults(&h, &faults) != MK_DONE)
		return false;
	if (it->partly)
		return it->keeps();
	if (info.count != 0 || faults != 0 || !tells(&before) || (it->keeps != NULL && !it->keeps()))
		return false;
	return succeeds(it, make(it));
}

/* the first allocation is refused, then the second, until the call makes no more */
static bool refuse_each(const struct call *it)
{
	base = depth();
	tell(&h, &start);
	for (long n = 0; n < 10000; n++) {
		if (it->prepare != NULL)
			it->prepare();
		mark = depth();
		tell(&h, &before);
		if (it->plan != NULL)
			it->plan();
		left = n;
		uint32_t status = make(it);
		bool had_all = left >= 0;
		left = -1;
		bool good = had_all ? n > 0 && succeeds(it, status) : fails(it, status);
		if (!good || mk_undo_to(&h, base, &info) != MK_DONE || !tells(&start)) {
			fprintf(stderr, "refusing.c: %s, allocation %ld: status %u\n", it->name, n, (unsigned)status);
			return false;
		}
		if (had_all)
			return true;
		refused++;
	}
	return false;
}

/* with memory a line has the status and the answer, and leaves what it did when nothing was refused */
static bool refuse_at_lines(void)
{
	static char answer[256], records[256];
	for (line = 0; line < sizeof lines / sizeof *lines; line++) {
		struct call it = { lines[line], .prepare = take_lines, .make = take_line, .text = answer, .records = records,
			.gives = is_after };
		take_lines();
		size_t from = depth();
		it.status = take_line();
		it.len = info.len;
		memcpy(answer, out, it.len);
		tell(&h, &after);
		if (mk_history(&h, from, out, sizeof out, &info) != MK_DONE)
			return false;
		memcpy(records, out, info.len);
		records[info.len] = 0;
		if (mk_undo_to(&h, 0, &info) != MK_DONE || !refuse_each(&it))
			return false;
	}
	return true;
}

/* the memory of a lock, which is kept for later handles; afterwards there is one that no handle has */
static bool refuse_locks(void)
{
	left = 0;
	if (mk_open(&h) != MK_OUT_OF_MEMORY || mk_close(&h) != MK_CLOSED || mk_open(&h) != MK_DONE)
		return false;
	left = 0;
	if (mk_copy(&h, &other) != MK_OUT_OF_MEMORY || mk_close(&other) != MK_CLOSED || mk_copy(&h, &other) != MK_DONE)
		return false;
	refused += 2;
	return mk_close(&other) == MK_DONE;
}

/* ---- a frozen group that is removed and made again isn't frozen, also if the removal had no memory to look for it */

CALL(make_long, mk_mkdir(&h, LONG, &info))
CALL(remove_long, mk_rmdir(&h, LONG, &info))
CALL(undo_once, mk_undo(&h, 1, out, sizeof out, &info))
CALL(undo_to, mk_undo_to(&h, depth() - 1, &info))
CALL(undo_by_line, ask("undo"))
CALL(undo_both, mk_rmdir(&h, LONG, &info) == MK_DONE ? mk_undo_to(&h, 0, &info) : (uint32_t)MK_OUT_OF_MEMORY)
CALL(vanish_and_make, mk_vanish(&h, LONG, 1, &info) == MK_DONE ? mk_mkdir(&h, LONG, &info) : (uint32_t)MK_OUT_OF_MEMORY)

static const struct {
	uint32_t (*remove)(void);
	uint32_t (*make_again)(void); /* NULL: the removal may have made it again */
} removals[] = { { remove_long, make_long }, { remove_long, undo_once }, { remove_long, undo_to },
	{ remove_long, undo_by_line }, { undo_once, make_long }, { undo_to, make_long }, { undo_by_line, make_long },
	{ undo_both, NULL }, { vanish_and_make, NULL } };

static bool is_thawed_by(uint32_t (*remove)(void), uint32_t (*make_again)(void), long n, bool *had_all)
{
	size_t faults;
	must("mkdir " LONG);
	if (mk_put(&h, LONG, "cgroup.freeze", "1", 1, 1, &info) != MK_DONE)
		return false;
	left = n;
	uint32_t status = remove();
	*had_all = left >= 0;
	left = -1;
	mk_clear_faults(&h, &faults);
	if (status == MK_DONE && make_again != NULL) {
		without_memory = true;
		status = make_again();
		without_memory = false;
		if (status != MK_OUT_OF_MEMORY || make_again() != MK_DONE)
			return false;
	} else if (status != MK_DONE) {
		mk_rmdir(&h, LONG, &info); /* if it is there */
	}
	mk_mkdir(&h, LONG, &info);
	return mk_get(&h, LONG, "cgroup.freeze", (char *)out, sizeof out, &info) == MK_DONE && out[0] == '0' &&
		mk_undo_to(&h, 0, &info) == MK_DONE;
}

static bool refuse_the_freezer(void)
{
	for (size_t i = 0; i < sizeof removals / sizeof *removals; i++) {
		bool had_all = false;
		for (long n = 0; !had_all; n++) {
			if (!is_thawed_by(removals[i].remove, removals[i].make_again, n, &had_all)) {
				fprintf(stderr, "refusing.c: removal %zu, allocation %ld: the new group is frozen\n", i, n);
				return false;
			}
			refused += !had_all;
		}
	}
	return true;
}

static void fill(void)
{
	static const char *const commands[] = { "mkdir /a", "mkdir " LONG, "mkdir " LONG "/b", "fork 1 2", "fork 1 3",
		"fork 1 4", "fork 1 5", "fork 1 6", "write " LONG " cgroup.procs 2", "write " LONG " cgroup.procs 4",
		"write " LONG " cgroup.procs 5", "write " LONG "/b cgroup.procs 6", "write /a cgroup.procs 3",
		"write /a pids.max 1", "write " LONG " pids.max 9" };
	char text[64], *end = many;
	must("mkdir /many");
	for (int pid = FIRST; pid < FIRST + MANY; pid++) {
		snprintf(text, sizeof text, "fork 1 %d", pid);
		must(text);
		snprintf(text, sizeof text, "write /many cgroup.procs %d", pid);
		must(text);
		end += sprintf(end, "%d\n", pid);
	}
	for (size_t i = 0; i < sizeof commands / sizeof *commands; i++)
		must(commands[i]);
	if (mk_forget(&h) != MK_DONE)
		abort();
	must("exit 4");
}

int main(void)
{
	if (!refuse_locks()) {
		fprintf(stderr, "refusing.c: the memory of a lock\n");
		return 1;
	}
	if (!refuse_at_lines() || !refuse_the_freezer())
		return 1;
	fill();
	for (size_t i = 0; i < sizeof calls / sizeof *calls; i++)
		if (!refuse_each(&calls[i]))
			return 1;
	if (fail() != MK_DONE)
		return 1;
	without_memory = true;
	for (size_t i = 0; i < sizeof frugal / sizeof *frugal; i++)
		if (frugal[i].make() != frugal[i].status) {
			without_memory = false;
			fprintf(stderr, "refusing.c: %s needs memory\n", frugal[i].name);
			return 1;
		}
	without_memory = false;
	printf("%ld\n", refused);
	return 0;
}
