/* What mk_get shows that mk_read doesn't: the freezer, cgroup.threads and the files that never change. What is expected is what a mount
   shows, as mount/tests/processes/freezer.py has it. Exits with 1 at the first difference; prints how many checks held. */
#include "check.h"
#include <assert.h>

enum { CROWD = 3000 }; /* their list is longer than the longest line and its answer */

static char text[256];

static bool shows(mk_handle *it, const char *path, const char *file, const char *wanted)
{
	memset(text, 'x', sizeof text);
	return mk_get(it, path, file, text, sizeof text, &info) == MK_DONE && info.len == strlen(wanted) &&
		strcmp(text, wanted) == 0;
}

/* the errno of a write */
static int put(const char *path, const char *data)
{
	return mk_put(&h, path, "cgroup.freeze", data, strlen(data), 1, &info) == MK_DONE ? 0 : info.error;
}

static bool is_frozen(mk_handle *it, const char *path)
{
	mk_get(it, path, "cgroup.events", text, sizeof text, &info);
	return strstr(text, "frozen 1\n") != NULL;
}

static int freezes(void)
{
	uint64_t before, after;
	size_t depth;
	CHECK(shows(&h, "/a", "cgroup.freeze", "0\n") && !is_frozen(&h, "/a"));
	CHECK(mk_changes(&h, &before) == MK_DONE && put("/a", "1\n") == 0 && mk_changes(&h, &after) == MK_DONE);
	CHECK(before == after && mk_depth(&h, &depth) == MK_DONE && depth == 4); /* it is no command */
	/* neither is a planned fault a change */
	CHECK(mk_fail(&h, "/ab", 9, EIO, &info) == MK_DONE && mk_vanish(&h, "/ab", 9, &info) == MK_DONE);
	CHECK(mk_changes(&h, &after) == MK_DONE && before == after && mk_clear_faults(&h, &depth) == MK_DONE && depth == 2);
	CHECK(shows(&h, "/a", "cgroup.freeze", "1\n") && shows(&h, "/a", "cgroup.events", "populated 1\nfrozen 1\n"));
	CHECK(shows(&h, "/a/b", "cgroup.freeze", "0\n") && is_frozen(&h, "/a/b") && !is_frozen(&h, "/ab"));
	/* not in the engine's text */
	CHECK(mk_read(&h, "/a", "cgroup.events", text, sizeof text, &info) == MK_DONE);
	CHECK(strcmp(text, "populated 1\nfrozen 0\n") == 0);
	CHECK(put("/a/b", "0x1") == 0 && put("/a", "1") == 0 && put("/a", "0") == 0);
	CHECK(!is_frozen(&h, "/a") && is_frozen(&h, "/a/b") && put("/a/b", "0") == 0 && !is_frozen(&h, "/a/b"));
	CHECK(
		put("/a", "2") == ERANGE && put("/a", "-1") == ERANGE && put("/a", "x") == EINVAL && put("/a", "\n") == EINVAL);
	CHECK(put("/", "1") == ENOENT && put("/none", "1") == ENOENT && !is_frozen(&h, "/a"));
	return 0;
}

/* A group that takes the place of a removed one doesn't freeze, however that one was removed. */
static int removed(void)
{
	CHECK(put("/ab", "1") == 0 && is_frozen(&h, "/ab"));
	CHECK(mk_rmdir(&h, "/ab", &info) == MK_DONE && mk_mkdir(&h, "/ab", &info) == MK_DONE);
	CHECK(!is_frozen(&h, "/ab") && shows(&h, "/ab", "cgroup.freeze", "0\n"));
	/* undone: it is gone, then there again */
	CHECK(put("/ab", "1") == 0 && mk_undo_to(&h, 4, &info) == MK_DONE && !is_frozen(&h, "/ab"));
	CHECK(mk_rmdir(&h, "/ab", &info) == MK_DONE && mk_mkdir(&h, "/ab", &info) == MK_DONE && put("/ab", "1") == 0);
	CHECK(mk_undo_to(&h, 4, &info) == MK_DONE && !is_frozen(&h, "/ab"));
	/* vanished just before it is made again */
	CHECK(put("/ab", "1") == 0 && mk_vanish(&h, "/ab", 1, &info) == MK_DONE && mk_mkdir(&h, "/ab", &info) == MK_DONE);
	CHECK(!is_frozen(&h, "/ab") && mk_undo_to(&h, 4, &info) == MK_DONE);
	return 0;
}

static int copied(void)
{
	mk_handle copy = { 0 };
	CHECK(put("/a", "1") == 0 && mk_copy(&h, &copy) == MK_DONE && !is_frozen(&copy, "/a") && is_frozen(&h, "/a"));
	CHECK(mk_close(&copy) == MK_DONE && mk_close(&h) == MK_DONE && mk_open(&h) == MK_DONE);
	CHECK(mk_mkdir(&h, "/a", &info) == MK_DONE && !is_frozen(&h, "/a"));
	return 0;
}

static int others(void)
{
	const mk_file *file;
	CHECK(shows(&h, "/a", "cgroup.threads", "1\n") && shows(&h, "/a/b", "cgroup.threads", "") &&
		shows(&h, "/", "cgroup.threads", ""));
	CHECK(mk_put(&h, "/a", "cgroup.threads", "1", 1, 1, &info) == MK_FAULT && info.error == EINVAL);
	for (size_t i = 0; (file = mk_file_at(i)) != NULL; i++) {
		CHECK(file->constant == NULL || shows(&h, "/a", file->name, file->constant));
		bool is_read = mk_get(&h, "/a", file->name, text, sizeof text, &info) == MK_DONE;
		CHECK(is_read == file->readable && (is_read || info.error == EINVAL));
		bool is_there = mk_get(&h, "/", file->name, text, sizeof text, &info) == MK_DONE;
		CHECK(is_there == (file->on_root && file->readable));
		CHECK(is_there || (info.error == ENOENT && info.code == MK_NO_FILE) || info.code == MK_DIRECTION);
		CHECK(mk_get(&h, "/none", file->name, text, sizeof text, &info) != MK_DONE);
		CHECK(info.error == (file->readable ? ENOENT : EINVAL));
	}
	CHECK(mk_get(&h, "/a", "none", text, sizeof text, &info) == MK_FAULT && info.error == ENOENT);
	CHECK(mk_get(&h, "/a b", "cgroup.type", text, sizeof text, &info) == MK_FAULT && info.error == ENOENT);
	CHECK(mk_get(&h, "a", "cgroup.type", text, sizeof text, &info) == MK_FAULT && info.error == ENOENT);
	CHECK(mk_get(&h, "", "cgroup.type", text, sizeof text, &info) == MK_FAULT && info.error == ENOENT);
	static char path[PATH_BYTES + 2];
	for (size_t at = 0; at <= PATH_BYTES; at++)
		path[at] = at % 2 == 0 ? '/' : 'x';
	CHECK(mk_get(&h, path, "cgroup.type", text, sizeof text, &info) == MK_FAULT && info.error == ENAMETOOLONG);
	/* an injected error whose number is also a code */
	static_assert(EDOM == MK_PATH, "the number of EDOM");
	CHECK(mk_fail(&h, "/a", 1, EDOM, &info) == MK_DONE);
	CHECK(mk_get(&h, "/a", "cgroup.type", text, sizeof text, &info) == MK_FAILED && info.error == EDOM);
	/* the size that is enough */
	CHECK(mk_get(&h, "/a", "cgroup.type", text, 7, &info) == MK_TOO_SMALL && info.needed == 8 && info.len == 0);
	CHECK(mk_get(&h, "/a", "cgroup.type", text, 8, &info) == MK_DONE && strcmp(text, "domain\n") == 0);
	/* a call that was too small doesn't count */
	CHECK(mk_fail(&h, "/a", 1, EIO, &info) == MK_DONE && mk_get(&h, "/a", "cgroup.type", text, 8, &info) == MK_FAILED);
	CHECK(info.error == EIO && mk_fail(&h, "/a", 2, EIO, &info) == MK_DONE);
	CHECK(mk_get(&h, "/a", "cgroup.type", text, 7, &info) == MK_TOO_SMALL);
	CHECK(mk_get(&h, "/a", "cgroup.type", text, 8, &info) == MK_DONE);
	CHECK(mk_get(&h, "/a", "cgroup.type", text, 8, &info) == MK_FAILED);
	return 0;
}

/* A group is found whatever the length of its list of processes. */
static int crowded(void)
{
	size_t depth;
	CHECK(mk_depth(&h, &depth) == MK_DONE);
	for (int64_t pid = 2; pid < CROWD; pid++)
		CHECK(mk_fork(&h, 1, pid, &info) == MK_DONE);
	CHECK(shows(&h, "/a", "cgroup.type", "domain\n") && shows(&h, "/a", "cgroup.freeze", "0\n"));
	CHECK(put("/a", "1") == 0 && is_frozen(&h, "/a") && put("/a", "0") == 0 && !is_frozen(&h, "/a"));
	CHECK(mk_undo_to(&h, depth, &info) == MK_DONE);
	return 0;
}

int main(void)
{
	int (*const parts[])(void) = { others, crowded, freezes, removed, copied };
	if (mk_open(&h) != MK_DONE || mk_mkdir(&h, "/a", &info) != MK_DONE || mk_mkdir(&h, "/a/b", &info) != MK_DONE ||
		mk_mkdir(&h, "/ab", &info) != MK_DONE || mk_attach(&h, "/a", 1, &info) != MK_DONE)
		return 1;
	return run_and_close(parts, sizeof parts / sizeof *parts);
}
