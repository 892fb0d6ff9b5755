/* The sizes that the header calls large enough for a text: each is enough for the longest, and none is much larger. Exits with the
   number of the first check that fails, or 0, and prints how many held. */
#include "check.h"

enum { PROCESSES = 1000 };
#define GREATEST_LIMIT "2147483646"

/* How many bytes the text of a file needs, with its zero byte. */
static size_t needed(const char *path, const char *file)
{
	char none[1];
	return mk_read(&h, path, file, none, 0, &info) == MK_TOO_SMALL ? info.needed : 0;
}

/* The pids with the most digits. */
static int pids(void)
{
	CHECK(done(mk_mkdir(&h, "/a", &info)) && done(mk_fork(&h, 1, PID_MAX, &info)) &&
		done(mk_attach(&h, "/a", PID_MAX, &info)));
	for (int64_t more = 1; more < PROCESSES; more++)
		CHECK(done(mk_fork(&h, PID_MAX, PID_MAX - more, &info)));
	static char text[MK_READ_MAX(PROCESSES)];
	CHECK(done(mk_read(&h, "/a", "cgroup.procs", text, sizeof text, &info)) && info.len == strlen(text));
	CHECK(needed("/a", "cgroup.procs") == 8 * PROCESSES + 1 && sizeof text - needed("/a", "cgroup.procs") < 64);
	CHECK(done(mk_kill(&h, "/a", &info)));
	return 0;
}

/* Every other file, with the longest text that it can have; of a count of refused forks that is 2^64 - 1. */
static int other_files(void)
{
	static const char *const limits[][2] = { { "pids.max", "4194304" }, { "cgroup.max.depth", GREATEST_LIMIT },
		{ "cgroup.max.descendants", GREATEST_LIMIT } };
	char path[32], text[MK_READ_MAX(0)];
	for (size_t i = 0; i < sizeof limits / sizeof *limits; i++)
		CHECK(done(mk_write(&h, "/a", limits[i][0], limits[i][1], &info)));
	for (int i = 1; i < SLOTS; i++) {
		snprintf(path, sizeof path, "/a/%d", i);
		CHECK(done(mk_mkdir(&h, path, &info)));
	}
	CHECK(mk_mkdir(&h, "/b", &info) == MK_REFUSED && info.code == MK_NO_SLOT);
	const mk_file *file;
	size_t longest = 0;
	for (size_t i = 0; (file = mk_file_at(i)) != NULL; i++) {
		if (file->constant != NULL || !file->readable)
			continue;
		CHECK(done(mk_get(&h, "/a", file->name, text, sizeof text, &info)));
		longest = info.len > longest ? info.len : longest;
	}
	CHECK(longest == strlen("nr_descendants 1023\nnr_dying_descendants 0\n") &&
		strlen("max 18446744073709551615\n") < longest);
	CHECK(done(mk_undo_to(&h, 0, &info)));
	return 0;
}

/* The longest path: names of 255 bytes, and a last one of 254. */
static void longest_path(char path[PATH_BYTES + 1])
{
	memset(path, 'x', PATH_BYTES);
	for (size_t at = 0; at < PATH_BYTES; at += NAME_BYTES + 1)
		path[at] = '/';
	path[PATH_BYTES] = 0;
}

static int paths(void)
{
	char path[PATH_BYTES + 1], text[MK_WHERE_MAX], none[1];
	longest_path(path);
	for (size_t end = NAME_BYTES + 1; end < PATH_BYTES; end += NAME_BYTES + 1) {
		path[end] = 0;
		CHECK(done(mk_mkdir(&h, path, &info)));
		path[end] = '/';
	}
	CHECK(done(mk_mkdir(&h, path, &info)) && done(mk_attach(&h, path, 1, &info)));
	CHECK(mk_where(&h, 1, none, 0, &info) == MK_TOO_SMALL && info.needed == MK_WHERE_MAX);
	CHECK(done(mk_where(&h, 1, text, sizeof text, &info)) && info.len == MK_WHERE_MAX - 1);
	return 0;
}

/* The longest recorded command, and a whole history. */
static int history(void)
{
	char path[PATH_BYTES + 1];
	uint8_t line[MK_HISTORY_MAX(1)];
	size_t depth;
	longest_path(path);
	CHECK(done(mk_write(&h, path, "cgroup.max.descendants", GREATEST_LIMIT, &info)) && done(mk_depth(&h, &depth)));
	CHECK(done(mk_history(&h, depth - 1, line, sizeof line, &info)) && info.len == sizeof line && info.count == 1);
	uint8_t *all = malloc(MK_HISTORY_MAX(depth));
	CHECK(all != NULL);
	bool whole = done(mk_history(&h, 0, all, MK_HISTORY_MAX(depth), &info)) && info.count == depth;
	free(all);
	CHECK(whole);
	return 0;
}

/* As many groups as there can be, with the longest names beside each other, and with the longest paths below each other. */
static int listings(void)
{
	char path[PATH_BYTES + 1], name[NAME_BYTES + 1];
	uint8_t none[1];
	CHECK(done(mk_undo_to(&h, 0, &info)));
	for (int i = 0; i < SLOTS; i++) {
		snprintf(path, sizeof path, "/%0*d", NAME_BYTES, i);
		CHECK(done(mk_mkdir(&h, path, &info)));
	}
	CHECK(mk_children(&h, (const uint8_t *)"/", 1, none, 0, &info) == MK_TOO_SMALL && info.needed == MK_CHILDREN_MAX);
	CHECK(done(mk_undo_to(&h, 0, &info)));
	longest_path(path);
	int made = 0;
	for (size_t end = NAME_BYTES + 1; end < PATH_BYTES; end += NAME_BYTES + 1, made++) {
		path[end] = 0;
		CHECK(done(mk_mkdir(&h, path, &info)));
		path[end] = '/';
	}
	char *last = strrchr(path, '/') + 1;
	size_t needed = (size_t)(SLOTS - made) * (PATH_BYTES + 1);
	for (int i = 0; made + i < SLOTS; i++) {
		snprintf(name, sizeof name, "%0*d", NAME_BYTES - 1, i);
		memcpy(last, name, NAME_BYTES);
		CHECK(done(mk_mkdir(&h, path, &info)));
	}
	CHECK(mk_groups(&h, none, 0, &info) == MK_TOO_SMALL && info.needed > needed && info.needed < MK_GROUPS_MAX);
	CHECK(MK_GROUPS_MAX == (SLOTS + 1) * (PATH_BYTES + 1) && done(mk_undo_to(&h, 0, &info)));
	return 0;
}

/* A first line with the greatest number of a line, and a line for each pid. */
static int answers(void)
{
	char first[64];
	size_t len = (size_t)snprintf(first, sizeof first, "%llu ok\n| %d\n", (unsigned long long)UINT64_MAX, PID_MAX);
	size_t each = strlen("| 4194303\n");
	CHECK(MK_ANSWER_MAX >= len + each * (PID_MAX - 1) && MK_ANSWER_MAX - (len + each * (PID_MAX - 1)) < 32);
	return 0;
}

int main(void)
{
	int (*const parts[])(void) = { pids, other_files, paths, history, listings, answers };
	if (mk_open(&h) != MK_DONE)
		return 1;
	return run_and_close(parts, sizeof parts / sizeof *parts);
}
