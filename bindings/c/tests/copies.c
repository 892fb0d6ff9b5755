/* Copies of a hierarchy: the same answers, and lives of their own. Exits with the number of the first check that fails, or 0, and
   prints how many held. */
#include "check.h"

static mk_handle copy;

static uint32_t ask(mk_handle *it, const char *line)
{
	uint8_t out[256];
	return mk_line(it, 1, (const uint8_t *)line, strlen(line), out, sizeof out, &info);
}

/* all that a hierarchy tells: the groups, each file of each, the place of each process, and the depth */
struct story {
	size_t len;
	char bytes[1 << 20];
};

enum { LAST_PID = 40 };

static void add(struct story *it, const void *bytes, size_t len)
{
	if (sizeof it->bytes - it->len < len)
		abort();
	memcpy(it->bytes + it->len, bytes, len);
	it->len += len;
}

static void tell(mk_handle *from, struct story *it)
{
	static uint8_t groups[65536];
	static char text[8192];
	size_t depth;
	it->len = 0;
	if (mk_groups(from, groups, sizeof groups, &info) != MK_DONE)
		abort();
	size_t len = info.len;
	add(it, groups, len);
	for (const char *path = (const char *)groups; path < (const char *)groups + len; path += strlen(path) + 1) {
		const mk_file *file;
		for (size_t i = 0; (file = mk_file_at(i)) != NULL; i++) {
			if (file->constant != NULL)
				continue;
			uint32_t status = mk_read(from, path, file->name, text, sizeof text, &info);
			add(it, &status, sizeof status);
			add(it, &info.code, sizeof info.code);
			add(it, text, info.len);
		}
	}
	for (int pid = 1; pid <= LAST_PID; pid++) {
		uint32_t status = mk_where(from, pid, text, sizeof text, &info);
		add(it, &status, sizeof status);
		add(it, text, info.len);
	}
	if (mk_depth(from, &depth) != MK_DONE)
		abort();
	add(it, &depth, sizeof depth);
}

static bool is_same(const struct story *a, const struct story *b)
{
	return a->len == b->len && memcmp(a->bytes, b->bytes, a->len) == 0;
}

static struct story first, second, third;

static bool tell_the_same(void)
{
	tell(&h, &first);
	tell(&copy, &second);
	return is_same(&first, &second);
}

/* a record of each kind, refused forks among them */
static const char *const lines[] = { "mkdir /a", "mkdir /a/b", "mkdir /a-group-with-a-long-name-that-takes-memory",
	"fork 1 2", "fork 1 3", "write /a/b cgroup.procs 2",
	"write /a-group-with-a-long-name-that-takes-memory cgroup.procs 3", "write /a cgroup.max.depth 5",
	"write /a cgroup.max.descendants 7", "write /a/b pids.max 2", "fork 2 9", "fork 2 10", "fork 2 10", "exit 9",
	"mkdir /c", "write /c pids.max 0", "rmdir /c", "write /a cgroup.kill 1", "fork 3 20", "exit 3" };

static int begin(void)
{
	CHECK(mk_open(&h) == MK_DONE);
	for (size_t i = 0; i < sizeof lines / sizeof *lines; i++)
		CHECK(ask(&h, lines[i]) <= MK_REFUSED);
	return 0;
}

static int the_same_answers(void)
{
	uint8_t one[256], other[256];
	mk_info more;
	uint32_t status;
	size_t undone = 0;
	CHECK(mk_copy(&h, &copy) == MK_DONE && tell_the_same());
	do {
		memset(one, 0, sizeof one);
		memset(other, 0, sizeof other);
		status = mk_undo(&h, 5, one, sizeof one, &info);
		CHECK(
			mk_undo(&copy, 5, other, sizeof other, &more) == status && more.len == info.len && more.code == info.code);
		CHECK(memcmp(one, other, sizeof one) == 0 && tell_the_same());
		undone += status == MK_DONE;
	} while (status == MK_DONE);
	/* every line above is recorded */
	CHECK(status == MK_REFUSED && more.code == MK_NOTHING_TO_UNDO && undone == sizeof lines / sizeof *lines);
	for (size_t i = 0; i < sizeof lines / sizeof *lines; i++)
		CHECK(ask(&h, lines[i]) == ask(&copy, lines[i]) && tell_the_same());
	CHECK(mk_close(&copy) == MK_DONE);
	return 0;
}

static int lives_of_their_own(void)
{
	static const char *const changes[] = { "mkdir /d", "fork 20 21", "fork 1 22", "write /a cgroup.procs 22",
		"write /a pids.max 1", "fork 22 23", "exit 20", "undo", "undo" };
	mk_handle again = { 0 };
	CHECK(mk_copy(&h, &copy) == MK_DONE);
	tell(&h, &first);
	for (size_t i = 0; i < sizeof changes / sizeof *changes; i++) {
		CHECK(ask(&copy, changes[i]) <= MK_REFUSED);
		tell(&h, &second);
		CHECK(is_same(&first, &second));
	}
	tell(&copy, &third);
	CHECK(!is_same(&first, &third) && mk_copy(&copy, &again) == MK_DONE);
	for (size_t i = sizeof changes / sizeof *changes; i > 0; i--)
		CHECK(ask(&h, changes[i - 1]) <= MK_REFUSED);
	CHECK(mk_undo_to(&h, 0, &info) == MK_DONE && mk_forget(&h) == MK_DONE && mk_close(&h) == MK_DONE);
	tell(&copy, &second);
	CHECK(is_same(&third, &second) && mk_close(&copy) == MK_DONE);
	tell(&again, &second);
	CHECK(is_same(&third, &second) && mk_close(&again) == MK_DONE && mk_open(&h) == MK_DONE);
	return 0;
}

static int handles(void)
{
	mk_handle none = { 0 }, same = h;
	size_t depth;
	CHECK(
		done(mk_mkdir(&h, "/a", &info)) && mk_copy(&none, &copy) == MK_CLOSED && mk_depth(&copy, &depth) == MK_CLOSED);
	CHECK(mk_copy(&none, &none) == MK_CLOSED && mk_copy(&h, &h) == MK_CLOSED && mk_copy(&h, &same) == MK_CLOSED);
	CHECK(mk_open(&copy) == MK_DONE && mk_copy(&h, &copy) == MK_CLOSED && mk_copy(&none, &copy) == MK_CLOSED);
	CHECK(mk_depth(&copy, &depth) == MK_DONE && depth == 0 && mk_depth(&h, &depth) == MK_DONE && depth == 1);
	CHECK(mk_close(&copy) == MK_DONE && mk_copy(&copy, &none) == MK_CLOSED && mk_copy(&h, &copy) == MK_DONE &&
		mk_close(&copy) == MK_DONE);
	return 0;
}

/* faults and changes belong to one engine */
static int without_faults(void)
{
	uint64_t changes;
	size_t left;
	char text[64];
	CHECK(
		done(mk_fail(&h, "/a", 1, EIO, &info)) && done(mk_vanish(&h, "/a", 2, &info)) && mk_copy(&h, &copy) == MK_DONE);
	CHECK(mk_changes(&copy, &changes) == MK_DONE && changes == 0 && mk_clear_faults(&copy, &left) == MK_DONE &&
		left == 0);
	for (int i = 0; i < 3; i++)
		CHECK(done(mk_read(&copy, "/a", "pids.current", text, sizeof text, &info)));
	CHECK(mk_wait(&copy, 0, 1, &changes) == MK_TIMED_OUT && changes == 0);
	CHECK(mk_read(&h, "/a", "pids.current", text, sizeof text, &info) == MK_FAILED && info.error == EIO);
	CHECK(mk_read(&h, "/a", "pids.current", text, sizeof text, &info) == MK_REFUSED && info.code == MK_NO_GROUP);
	CHECK(mk_wait(&copy, 0, 1, &changes) == MK_TIMED_OUT &&
		done(mk_read(&copy, "/a", "pids.current", text, sizeof text, &info)));
	CHECK(done(mk_mkdir(&copy, "/b", &info)) && mk_changes(&copy, &changes) == MK_DONE && changes == 1 &&
		mk_close(&copy) == MK_DONE);
	return 0;
}

static int forgotten(void)
{
	CHECK(done(mk_mkdir(&h, "/f", &info)) && mk_forget(&h) == MK_DONE && mk_copy(&h, &copy) == MK_DONE &&
		tell_the_same());
	CHECK(ask(&copy, "undo") == MK_REFUSED && info.code == MK_NOTHING_TO_UNDO);
	CHECK(mk_has_group(&copy, (const uint8_t *)"/f", 2, &info) == MK_DONE && mk_close(&copy) == MK_DONE);
	return 0;
}

static int many(void)
{
	enum { GROUPS = 200, PIDS = 2000, FIRST = 100 };
	char path[16];
	for (int i = 0; i < GROUPS; i++) {
		snprintf(path, sizeof path, "/g%d", i);
		CHECK(done(mk_mkdir(&h, path, &info)));
	}
	for (int i = 0; i < PIDS; i++) {
		snprintf(path, sizeof path, "/g%d", i % GROUPS);
		CHECK(done(mk_fork(&h, 1, FIRST + i, &info)) && done(mk_attach(&h, path, FIRST + i, &info)));
	}
	CHECK(mk_copy(&h, &copy) == MK_DONE && tell_the_same());
	CHECK(mk_undo_to(&copy, 0, &info) == MK_DONE && info.count == GROUPS + 2 * PIDS &&
		mk_undo_to(&h, 0, &info) == MK_DONE && tell_the_same());
	CHECK(mk_close(&copy) == MK_DONE);
	return 0;
}

int main(void)
{
	int (*const parts[])(
		void) = { begin, the_same_answers, lives_of_their_own, handles, without_faults, forgotten, many };
	int failed = run_all(parts, sizeof parts / sizeof *parts);
	if (failed == 0 && mk_close(&h) != MK_DONE)
		return 1;
	return failed;
}
