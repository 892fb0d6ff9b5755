/* What the library answers C, call by call. Exits with the number of the first check that fails, or 0. */
#include "check.h"

static uint8_t out[16384];

static uint32_t ask(const char *line, size_t size)
{
	return mk_line(&h, 7, (const uint8_t *)line, strlen(line), out, size, &info);
}

static uint32_t children(const char *path, size_t size)
{
	return mk_children(&h, (const uint8_t *)path, strlen(path), out, size, &info);
}

static uint32_t all_groups(size_t size)
{
	return mk_groups(&h, out, size, &info);
}

static uint32_t subtree(const char *path, size_t size)
{
	return mk_subtree(&h, (const uint8_t *)path, strlen(path), out, size, &info);
}

static uint32_t history(size_t from, size_t size)
{
	return mk_history(&h, from, out, size, &info);
}

static uint32_t has_group(const char *path)
{
	return mk_has_group(&h, (const uint8_t *)path, strlen(path), &info);
}

static bool says(const char *text)
{
	return info.len == strlen(text) && memcmp(out, text, info.len) == 0;
}

static bool names(size_t count, const char *bytes, size_t len)
{
	return info.count == count && info.len == len && memcmp(out, bytes, len) == 0;
}

/* a refusal because of a small buffer leaves the depth of the engine unchanged */
static bool kept(size_t depth)
{
	size_t now = depth + 1;
	return mk_depth(&h, &now) == MK_DONE && now == depth;
}

static int closed_handles(void)
{
	size_t depth = 9;
	CHECK(ask("undo", sizeof out) == MK_CLOSED && info.len == 0 && info.code == 0);
	CHECK(mk_depth(&h, &depth) == MK_CLOSED && depth == 0);
	CHECK(children("/", sizeof out) == MK_CLOSED);
	CHECK(all_groups(sizeof out) == MK_CLOSED && info.len == 0 && info.count == 0);
	CHECK(subtree("/", sizeof out) == MK_CLOSED && info.len == 0 && info.count == 0);
	CHECK(history(0, sizeof out) == MK_CLOSED && info.len == 0 && info.count == 0);
	CHECK(has_group("/") == MK_CLOSED);
	CHECK(mk_close(&h) == MK_CLOSED);
	CHECK(mk_open(&h) == MK_DONE);
	CHECK(mk_open(&h) == MK_CLOSED);
	return 0;
}

static int replies(void)
{
	CHECK(ask("mkdir /a", sizeof out) == MK_DONE && says("7 ok\n") && info.code == 0);
	CHECK(ask("mkdir /a", sizeof out) == MK_REFUSED && info.code == MK_EXISTS && says("7 refused exists\n"));
	CHECK(ask("mkdir /b/c", sizeof out) == MK_REFUSED && info.code == MK_NO_GROUP && says("7 refused nogroup /b\n"));
	CHECK(ask("rmdir /", sizeof out) == MK_REFUSED && info.code == MK_ROOT_FIXED);
	CHECK(ask("fork 1 2", sizeof out) == MK_DONE);
	CHECK(ask("fork 1 2", sizeof out) == MK_REFUSED && info.code == MK_PID_IN_USE && says("7 refused pidinuse 2\n"));
	CHECK(ask("exit 9", sizeof out) == MK_REFUSED && info.code == MK_NO_PROCESS && says("7 refused noprocess 9\n"));
	CHECK(ask("write /a cgroup.procs 2", sizeof out) == MK_DONE);
	CHECK(ask("rmdir /a", sizeof out) == MK_REFUSED && info.code == MK_HAS_PROCESSES);
	CHECK(ask("cat /a pids.current", sizeof out) == MK_DONE && says("7 ok\n| 1\n"));
	CHECK(ask("cat / pids.current", sizeof out) == MK_REFUSED && info.code == MK_NO_FILE);
	CHECK(ask("where 2", sizeof out) == MK_DONE && says("7 ok\n| 0::/a\n"));
	CHECK(ask("write /a cgroup.max.depth 0", sizeof out) == MK_DONE);
	CHECK(ask("mkdir /a/b", sizeof out) == MK_REFUSED && info.code == MK_DEPTH && says("7 refused depth /a\n"));
	CHECK(ask("write /a cgroup.max.descendants 0", sizeof out) == MK_DONE);
	CHECK(ask("mkdir /a/b", sizeof out) == MK_REFUSED && info.code == MK_DESCENDANTS);
	CHECK(ask("mkdir a", sizeof out) == MK_FAULT && info.code == MK_PATH && says("7 refused path\n"));
	CHECK(ask("mkdir", sizeof out) == MK_FAULT && info.code == MK_SYNTAX);
	CHECK(ask("cat /a pids.none", sizeof out) == MK_FAULT && info.code == MK_FILE);
	CHECK(ask("cat /a cgroup.kill", sizeof out) == MK_FAULT && info.code == MK_DIRECTION);
	CHECK(ask("write /a pids.max x", sizeof out) == MK_FAULT && info.code == MK_VALUE);
	CHECK(ask("# mkdir /c", sizeof out) == MK_SKIPPED && info.len == 0);
	CHECK(ask("", sizeof out) == MK_SKIPPED);
	CHECK(kept(5));
	return 0;
}

static int small_buffers(void)
{
	CHECK(ask("mkdir /b", 4) == MK_TOO_SMALL && info.len == 0 && info.needed >= 5 && info.error == ERANGE && kept(5));
	CHECK(ask("cat /a cgroup.stat", 20) == MK_TOO_SMALL &&
		info.needed >= strlen("7 ok\n| nr_descendants 0\n| nr_dying_descendants 0\n"));
	CHECK(ask("cat /a cgroup.stat", info.needed) == MK_DONE && info.needed == 0);
	CHECK(ask("mkdir b", 5) == MK_TOO_SMALL);
	CHECK(mk_undo(&h, 7, out, 10, &info) == MK_TOO_SMALL && kept(5));
	CHECK(ask("mkdir /b", 5) == MK_DONE && says("7 ok\n") && kept(6));
	/* a refused fork is counted and recorded, but not if its answer does not fit */
	CHECK(ask("write /a pids.max 1", sizeof out) == MK_DONE && kept(7));
	CHECK(ask("fork 2 3", 10) == MK_TOO_SMALL && kept(7));
	CHECK(ask("cat /a pids.events", sizeof out) == MK_DONE && says("7 ok\n| max 0\n"));
	CHECK(ask("fork 2 3", sizeof out) == MK_REFUSED && info.code == MK_PIDS_MAX && says("7 refused pidsmax /a\n") &&
		kept(8));
	CHECK(ask("cat /a pids.events", sizeof out) == MK_DONE && says("7 ok\n| max 1\n"));
	CHECK(mk_undo(&h, 8, out, sizeof out, &info) == MK_DONE && says("8 ok\n| fork 2 3\n"));
	CHECK(mk_undo(&h, 8, out, sizeof out, &info) == MK_DONE && says("8 ok\n| write /a pids.max 1\n"));
	return 0;
}

static int groups(void)
{
	CHECK(ask("write /a cgroup.max.descendants max", sizeof out) == MK_DONE);
	CHECK(ask("write /a cgroup.max.depth max", sizeof out) == MK_DONE);
	CHECK(ask("mkdir /a/x", sizeof out) == MK_DONE && ask("mkdir /a/w", sizeof out) == MK_DONE);
	CHECK(ask("mkdir /a/x/y", sizeof out) == MK_DONE && ask("mkdir /a/x-z", sizeof out) == MK_DONE);
	CHECK(children("/", sizeof out) == MK_DONE && names(2, "a\0b", 4));
	CHECK(children("/a", sizeof out) == MK_DONE && names(3, "w\0x\0x-z", 8));
	CHECK(children("/a", 8) == MK_DONE && children("/a", 7) == MK_TOO_SMALL && info.len == 0 && info.count == 0);
	CHECK(info.needed == 8);
	CHECK(children("/b", 1) == MK_DONE && info.count == 0 && info.len == 0);
	CHECK(children("/c", sizeof out) == MK_REFUSED && info.code == MK_NO_GROUP && info.len == 0);
	CHECK(children("c", sizeof out) == MK_FAULT && info.code == MK_PATH);
	CHECK(all_groups(sizeof out) == MK_DONE && names(7, "/\0/a\0/a/w\0/a/x\0/a/x/y\0/a/x-z\0/b", 32));
	CHECK(all_groups(32) == MK_DONE && all_groups(31) == MK_TOO_SMALL && info.len == 0 && info.count == 0);
	CHECK(info.needed == 32);
	CHECK(subtree("/", sizeof out) == MK_DONE && names(7, "/\0/a\0/a/w\0/a/x\0/a/x/y\0/a/x-z\0/b", 32));
	CHECK(subtree("/a", sizeof out) == MK_DONE && names(5, "/a\0/a/w\0/a/x\0/a/x/y\0/a/x-z", 27));
	CHECK(subtree("/a/x", sizeof out) == MK_DONE && names(2, "/a/x\0/a/x/y", 12) && subtree("/b", 3) == MK_DONE &&
		names(1, "/b", 3));
	CHECK(subtree("/a", 27) == MK_DONE && subtree("/a", 26) == MK_TOO_SMALL && info.len == 0 && info.count == 0);
	CHECK(info.needed == 27);
	CHECK(subtree("/a/y", sizeof out) == MK_REFUSED && info.code == MK_NO_GROUP && info.len == 0 && info.count == 0);
	CHECK(subtree("/a/", sizeof out) == MK_FAULT && info.code == MK_PATH && info.len == 0 && info.count == 0);
	CHECK(has_group("/a/x/y") == MK_DONE && info.code == 0);
	CHECK(has_group("/a/y") == MK_REFUSED && info.code == MK_NO_GROUP);
	CHECK(has_group("/a/") == MK_FAULT && info.code == MK_PATH);
	return 0;
}

static int to_the_end(void)
{
	size_t depth;
	CHECK(mk_depth(&h, &depth) == MK_DONE);
	while (depth-- > 0)
		CHECK(mk_undo(&h, 1, out, sizeof out, &info) == MK_DONE);
	CHECK(mk_undo(&h, 1, out, sizeof out, &info) == MK_REFUSED && info.code == MK_NOTHING_TO_UNDO &&
		says("1 refused nothing\n"));
	CHECK(children("/", sizeof out) == MK_DONE && info.count == 0);
	CHECK(all_groups(sizeof out) == MK_DONE && names(1, "/", 2));
	CHECK(mk_close(&h) == MK_DONE && mk_close(&h) == MK_CLOSED);
	CHECK(mk_open(&h) == MK_DONE && mk_close(&h) == MK_DONE);
	return 0;
}

/* what is recorded is listed, refused forks included, until it is undone or forgotten */
static int recorded(void)
{
	CHECK(mk_open(&h) == MK_DONE && history(0, 0) == MK_DONE && info.len == 0 && info.count == 0);
	CHECK(ask("mkdir /a", sizeof out) == MK_DONE && ask("mkdir /a", sizeof out) == MK_REFUSED &&
		ask("fork 1 2", sizeof out) == MK_DONE);
	CHECK(ask("write\t/a cgroup.procs 2", sizeof out) == MK_DONE && ask("write /a pids.max 1", sizeof out) == MK_DONE);
	CHECK(ask("fork 2 3", sizeof out) == MK_REFUSED && ask("where 2", sizeof out) == MK_DONE);
	CHECK(history(0, sizeof out) == MK_DONE && info.count == 5);
	CHECK(says("mkdir /a\nfork 1 2\nwrite /a cgroup.procs 2\nwrite /a pids.max 1\nfork 2 3\n"));
	CHECK(history(0, 71) == MK_DONE && info.len == 71 && history(0, 70) == MK_TOO_SMALL && info.len == 0 &&
		info.count == 0 && info.needed == 71);
	CHECK(mk_undo_to(&h, 2, &info) == MK_DONE && history(0, sizeof out) == MK_DONE && info.count == 2 &&
		says("mkdir /a\nfork 1 2\n"));
	CHECK(history(1, sizeof out) == MK_DONE && info.count == 1 && says("fork 1 2\n"));
	CHECK(history(1, 8) == MK_TOO_SMALL && info.count == 0 && info.needed == 9);
	CHECK(history(2, 0) == MK_DONE && info.len == 0 && info.count == 0);
	CHECK(history(SIZE_MAX, 0) == MK_DONE && info.len == 0 && info.count == 0);
	CHECK(mk_forget(&h) == MK_DONE && history(0, sizeof out) == MK_DONE && info.len == 0 && info.count == 0);
	CHECK(ask("rmdir /a", sizeof out) == MK_DONE && history(0, sizeof out) == MK_DONE && info.count == 1 &&
		says("rmdir /a\n"));
	CHECK(mk_close(&h) == MK_DONE);
	return 0;
}

static int errnos(void)
{
	CHECK(mk_errno(0) == 0 && mk_errno(MK_EXISTS) == EEXIST && mk_errno(MK_NO_GROUP) == ENOENT &&
		mk_errno(MK_DEPTH) == EAGAIN);
	CHECK(mk_errno(MK_HAS_CHILDREN) == EBUSY && mk_errno(MK_NO_PROCESS) == ESRCH && mk_errno(MK_PIDS_MAX) == EAGAIN);
	CHECK(mk_errno(MK_VALUE) == EINVAL && mk_errno(MK_FILE) == ENOENT && mk_errno(MK_NOTHING_TO_UNDO) == ENODATA);
	return 0;
}

static int names_of_codes(void)
{
	static const uint32_t codes[] = { MK_EXISTS, MK_NO_GROUP, MK_DESCENDANTS, MK_DEPTH, MK_NO_SLOT, MK_ROOT_FIXED,
		MK_HAS_CHILDREN, MK_HAS_PROCESSES, MK_NO_PROCESS, MK_PID_IN_USE, MK_PIDS_MAX, MK_NO_FILE, MK_NOT_READABLE,
		MK_NOTHING_TO_UNDO, MK_SYNTAX, MK_PATH, MK_FILE, MK_DIRECTION, MK_VALUE };
	for (size_t i = 0; i < sizeof codes / sizeof *codes; i++)
		CHECK(mk_name(codes[i]) != NULL && mk_message(codes[i]) != NULL);
	CHECK(strcmp(mk_name(0), "ok") == 0 && strcmp(mk_name(MK_NO_GROUP), "nogroup") == 0 &&
		strcmp(mk_name(MK_VALUE), "value") == 0);
	CHECK(mk_name(15) == NULL && mk_name(31) == NULL && mk_name(37) == NULL && mk_message(37) == NULL);
	for (uint32_t status = MK_DONE; status <= MK_BUSY; status++)
		CHECK(mk_status_message(status) != NULL);
	CHECK(mk_status_message(MK_FAILED + 1) == NULL && mk_path_message(MK_RESERVED + 1) == NULL);
	char version[32];
	uint32_t number = mk_version_number();
	snprintf(version, sizeof version, "%u.%u.%u", number / 1000000, number / 1000 % 1000, number % 1000);
	CHECK(number == MK_VERSION_NUMBER && strcmp(version, MK_VERSION) == 0);
	/* a library that ./try made says so */
	CHECK(strcmp(mk_version(), MK_VERSION) == 0 || strcmp(mk_version(), MK_VERSION " without proofs") == 0);
	CHECK(mk_status_errno(MK_DONE, 0) == 0 && mk_status_errno(MK_CLOSED, 0) == EBADF &&
		mk_status_errno(MK_OUT_OF_MEMORY, 0) == ENOMEM);
	CHECK(mk_status_errno(MK_REFUSED, MK_EXISTS) == EEXIST && mk_status_errno(MK_SKIPPED, 0) == 0 &&
		mk_status_errno(MK_BUSY, 0) == EDEADLK);
	return 0;
}

/* the fault of a path, its place, and whether the engine too finds it to be no path */
static bool has_fault(const char *path, size_t len, uint32_t fault, size_t position)
{
	size_t at = 9;
	uint32_t found = mk_path_fault((const uint8_t *)path, len, &at);
	uint32_t status = mk_has_group(&h, (const uint8_t *)path, len, &info);
	return found == fault && at == position && (status == MK_FAULT) == (fault != 0);
}

static int faults_of_paths(void)
{
	static char text[5000];
#define FAULT(path, fault, position) CHECK(has_fault(path, sizeof(path) - 1, fault, position))
	CHECK(mk_open(&h) == MK_DONE);
	FAULT("/", 0, 0);
	FAULT("/a/b", 0, 0);
	FAULT("", MK_NOT_ROOTED, 0);
	FAULT("a", MK_NOT_ROOTED, 0);
	FAULT("//", MK_EMPTY_NAME, 1);
	FAULT("/a/", MK_EMPTY_NAME, 3);
	FAULT("/my service", MK_BAD_BYTE, 3);
	FAULT("/a/b\xff", MK_BAD_BYTE, 4);
	FAULT("/a\0b", MK_BAD_BYTE, 2);
	FAULT("/a/.", MK_DOT_NAME, 3);
	FAULT("/../a", MK_DOT_NAME, 1);
	FAULT("/...", 0, 0);
	FAULT("/a/cgroup.x", MK_RESERVED, 3);
	FAULT("/pids.", MK_RESERVED, 1);
	FAULT("/pids", 0, 0);
	memset(text, 'a', sizeof text);
	text[0] = '/';
	CHECK(has_fault(text, NAME_BYTES + 1, 0, 0) && has_fault(text, NAME_BYTES + 2, MK_NAME_TOO_LONG, 1) &&
		has_fault(text, PATH_BYTES + 1, MK_PATH_TOO_LONG, PATH_BYTES));
	text[300] = ' '; /* a bad byte comes before the length of its name */
	CHECK(has_fault(text, 310, MK_BAD_BYTE, 300));
	for (size_t i = 0; i < 66; i += 2)
		memcpy(text + i, "/a", 2);
	CHECK(has_fault(text, 64, 0, 0) && has_fault(text, 66, MK_TOO_DEEP, 65) && has_fault(text, 65, MK_TOO_DEEP, 65));
	/* texts over few bytes: the engine and the check agree on which are paths */
	unsigned seed = 1;
	for (int round = 0; round < 20000; round++) {
		static const char bytes[] = "/ab./.c p\xff";
		size_t len = (seed = seed * 1103515245u + 12345u) >> 16 & 15, at = 9;
		for (size_t i = 0; i < len; i++)
			text[i] = bytes[(seed = seed * 1103515245u + 12345u) >> 16 & 7];
		if (len > 0 && round % 8 != 0)
			text[0] = '/';
		uint32_t fault = mk_path_fault((const uint8_t *)text, len, &at);
		CHECK((mk_has_group(&h, (const uint8_t *)text, len, &info) == MK_FAULT) == (fault != 0) && at <= len);
	}
	CHECK(mk_close(&h) == MK_DONE);
	return 0;
}

/* A copy names the same engine, and once that is closed neither has another's. */
static int copies(void)
{
	mk_handle copy, other = { 0 };
	CHECK(mk_open(&h) == MK_DONE && ask("mkdir /a", sizeof out) == MK_DONE);
	copy = h;
	CHECK(mk_has_group(&copy, (const uint8_t *)"/a", 2, &info) == MK_DONE);
	CHECK(mk_close(&copy) == MK_DONE && mk_close(&h) == MK_CLOSED);
	CHECK(mk_open(&other) == MK_DONE && has_group("/") == MK_CLOSED && mk_close(&copy) == MK_CLOSED);
	CHECK(mk_open(&h) == MK_DONE && has_group("/a") == MK_REFUSED);
	CHECK(mk_close(&h) == MK_DONE && mk_close(&other) == MK_DONE);
	return 0;
}

int main(void)
{
	int (*const parts[])(void) = { closed_handles, replies, small_buffers, groups, to_the_end, recorded, errnos,
		names_of_codes, faults_of_paths, copies };
	return run_all(parts, sizeof parts / sizeof *parts);
}
