/* Tables: what each call returns beside its status, the name and errno of each code, the numbers and constants that mk_put takes. Exits
   with the number of the first check that fails, or 0, and prints how many held. */
#include "check.h"

static char text[4096];
static uint8_t out[4096];

/* ---- the fields of mk_info: 0, unless the header says otherwise */

/* Each field as it was before a call, so that one that the call doesn't set is seen. */
static mk_info *unset(void)
{
	memset(&info, 0xa5, sizeof info);
	return &info;
}

static bool fields(uint32_t status, size_t len, size_t count)
{
	return status == MK_DONE && info.len == len && info.count == count && info.needed == 0 && info.code == 0 &&
		info.error == 0;
}

static bool too_small(uint32_t status, size_t needed)
{
	return status == MK_TOO_SMALL && info.len == 0 && info.count == 0 && info.needed == needed && info.code == 0 &&
		info.error == ERANGE;
}

static const uint8_t *bytes(const char *path)
{
	return (const uint8_t *)path;
}

static int commands(void)
{
	const size_t lens[] = { 5, 2 };
	CHECK(fields(mk_mkdir(&h, "/a", unset()), 0, 0) && fields(mk_mkdir(&h, "/a/b", unset()), 0, 0));
	CHECK(fields(mk_fork(&h, 1, 2, unset()), 0, 0) && fields(mk_attach(&h, "/a", 2, unset()), 0, 0));
	CHECK(fields(mk_write(&h, "/a", "pids.max", "9", unset()), 0, 0) &&
		fields(mk_put(&h, "/a", "pids.max", "8", 1, 1, unset()), 0, 0));
	CHECK(fields(mk_put(&h, "/a", "cgroup.freeze", "0", 1, 1, unset()), 0, 0));
	CHECK(fields(mk_fork(&h, 1, 3, unset()), 0, 0) && fields(mk_exit(&h, 3, unset()), 0, 0));
	CHECK(fields(mk_kill(&h, "/a", unset()), 0, 0) && fields(mk_rmdir(&h, "/a/b", unset()), 0, 0));
	CHECK(fields(mk_line(&h, 12, bytes("mkdir /c"), 8, out, sizeof out, unset()), strlen("12 ok\n"), 0));
	CHECK(fields(mk_words(&h, 12, "rmdir/c", lens, 2, out, sizeof out, unset()), strlen("12 ok\n"), 0));
	CHECK(fields(mk_undo(&h, 3, out, sizeof out, unset()), strlen("3 ok\n| rmdir /c\n"), 0));
	CHECK(fields(mk_undo_to(&h, 4, unset()), 0, 7) && fields(mk_undo_to(&h, 4, unset()), 0, 0));
	return 0;
}

/* Now there are /, /a with process 2, and /a/b. */
static int reads(void)
{
	uint32_t pids[8];
	uint64_t value;
	mk_text texts[2];
	CHECK(fields(mk_read(&h, "/a", "cgroup.procs", text, sizeof text, unset()), 2, 0) &&
		fields(mk_where(&h, 2, text, sizeof text, unset()), strlen("0::/a\n"), 0));
	CHECK(fields(mk_wait_file(&h, "/a", "cgroup.procs", "", 0, text, sizeof text, unset()), 2, 0));
	CHECK(fields(mk_processes(&h, "/a", pids, 8, unset()), 0, 1) &&
		fields(mk_processes(&h, "/a/b", pids, 8, unset()), 0, 0));
	for (size_t i = 0; i < GROUP_NUMBERS; i++)
		CHECK(fields(ask_number(&group_numbers[i], &h, "/a", &value, unset()), 0, 0));
	CHECK(fields(mk_children(&h, bytes("/a"), 2, out, sizeof out, unset()), 2, 1) &&
		fields(mk_subtree(&h, bytes("/a"), 2, out, sizeof out, unset()), sizeof "/a" + sizeof "/a/b", 2));
	CHECK(fields(mk_groups(&h, out, sizeof out, unset()), sizeof "/" + sizeof "/a" + sizeof "/a/b", 3) &&
		fields(mk_has_group(&h, bytes("/a"), 2, unset()), 0, 0));
	CHECK(fields(mk_history(&h, 3, out, sizeof out, unset()), strlen("write /a cgroup.procs 2\n"), 1));
	CHECK(fields(mk_read_many(&h, "/a\0pids.max\0/c\0pids.max", 2, texts, text, sizeof text, unset()),
		sizeof "max\n" + 1, 2));
	CHECK(texts[0].code == 0 && texts[0].error == 0 && texts[0].at == 0 && texts[1].len == 0 &&
		texts[1].at == sizeof "max\n");
	CHECK(fields(mk_fail(&h, "/c", 7, EIO, unset()), 0, 0) && fields(mk_vanish(&h, "/c", 7, unset()), 0, 0));
	return 0;
}

static int small(void)
{
	uint32_t pids[1];
	mk_text texts[1];
	CHECK(too_small(mk_line(&h, 1, bytes("mkdir /c"), 8, out, 4, unset()), strlen("1 ok\n")) &&
		too_small(mk_words(&h, 1, "mkdir/c", (const size_t[]){ 5, 2 }, 2, out, 4, unset()), strlen("1 ok\n")));
	CHECK(too_small(mk_undo(&h, 1, out, 0, unset()), strlen("1 ok\n| write /a cgroup.procs 2\n")) &&
		too_small(mk_history(&h, 3, out, 0, unset()), strlen("write /a cgroup.procs 2\n")));
	CHECK(too_small(mk_read(&h, "/a", "pids.max", text, 4, unset()), sizeof "max\n") &&
		too_small(mk_where(&h, 2, text, 6, unset()), sizeof "0::/a\n"));
	CHECK(too_small(mk_wait_file(&h, "/a", "pids.max", "", 0, text, 4, unset()), sizeof "max\n") &&
		too_small(mk_processes(&h, "/a", pids, 0, unset()), 1));
	CHECK(too_small(mk_children(&h, bytes("/a"), 2, out, 1, unset()), sizeof "b") &&
		too_small(mk_subtree(&h, bytes("/a/b"), 4, out, 1, unset()), sizeof "/a/b"));
	CHECK(too_small(mk_groups(&h, out, 0, unset()), sizeof "/" + sizeof "/a" + sizeof "/a/b") &&
		too_small(mk_read_many(&h, "/a\0pids.max", 1, texts, text, 4, unset()), sizeof "max\n"));
	return 0;
}

/* A call that returns MK_TOO_SMALL counts for no fault: the next one returns the answer, and the one after it fails. */
static int again(void)
{
	static const size_t lens[] = { 3, 2, 8 };
	uint32_t pids[1];
	for (int call = 0; call < 6; call++) {
		static const uint32_t wanted[] = { MK_TOO_SMALL, MK_DONE, MK_FAILED };
		CHECK(done(mk_fail(&h, "/a", 2, ENOSPC, &info)));
		for (int round = 0; round < 3; round++) {
			size_t size = round == 0 ? 1 : sizeof out;
			uint32_t status = call == 0 ? mk_line(&h, 1, bytes("cat /a pids.max"), 15, out, size, &info)
				: call == 1             ? mk_words(&h, 1, "cat/apids.max", lens, 3, out, size, &info)
				: call == 2             ? mk_children(&h, bytes("/a"), 2, out, size, &info)
				: call == 3             ? mk_subtree(&h, bytes("/a"), 2, out, size, &info)
				: call == 4             ? mk_read(&h, "/a", "pids.max", text, size, &info)
										: mk_processes(&h, "/a", pids, round == 0 ? 0 : 1, &info);
			CHECK(status == wanted[round] && (status != MK_FAILED || info.error == ENOSPC));
		}
	}
	return 0;
}

/* ---- codes and statuses, as docs/FORMATS.md has them */

static int codes(void)
{
	static const struct {
		uint32_t code;
		const char *name;
		int error;
		const char *about; /* what the message is about */
	} each[] = { { MK_EXISTS, "exists", EEXIST, "group exists" }, { MK_NO_GROUP, "nogroup", ENOENT, "no such group" },
		{ MK_DESCENDANTS, "descendants", EAGAIN, "descendants" }, { MK_DEPTH, "depth", EAGAIN, "depth" },
		{ MK_NO_SLOT, "noslot", ENOSPC, "1,024 groups" }, { MK_ROOT_FIXED, "rootfixed", EBUSY, "root" },
		{ MK_HAS_CHILDREN, "haschildren", EBUSY, "has children" },
		{ MK_HAS_PROCESSES, "hasprocesses", EBUSY, "has processes" },
		{ MK_NO_PROCESS, "noprocess", ESRCH, "no such process" },
		{ MK_PID_IN_USE, "pidinuse", EEXIST, "pid is in use" },
		{ MK_PIDS_MAX, "pidsmax", EAGAIN, "number of processes" },
		{ MK_NO_FILE, "nofile", ENOENT, "root has no such file" }, { MK_NOT_READABLE, "direction", EINVAL, "read" },
		{ MK_NOTHING_TO_UNDO, "nothing", ENODATA, "undo" }, { MK_SYNTAX, "syntax", EINVAL, "command" },
		{ MK_PATH, "path", EINVAL, "not a path" }, { MK_FILE, "file", ENOENT, "no file" },
		{ MK_DIRECTION, "direction", EINVAL, "read or written" }, { MK_VALUE, "value", EINVAL, "value" } };
	for (size_t i = 0; i < sizeof each / sizeof *each; i++) {
		CHECK(strcmp(mk_name(each[i].code), each[i].name) == 0 && mk_errno(each[i].code) == each[i].error);
		uint32_t status = each[i].code < MK_SYNTAX ? MK_REFUSED : MK_FAULT;
		CHECK(mk_status_errno(status, each[i].code) == each[i].error && mk_status_errno(MK_DONE, each[i].code) == 0);
		CHECK(mk_status_errno(MK_CLOSED, each[i].code) == EBADF &&
			strstr(mk_message(each[i].code), each[i].about) != NULL);
		for (size_t other = 0; other < i; other++)
			CHECK(strcmp(mk_message(each[i].code), mk_message(each[other].code)) != 0);
	}
	CHECK(strcmp(mk_message(0), "done") == 0 && strcmp(mk_name(0), "ok") == 0);
	CHECK(mk_message(15) == NULL && mk_message(31) == NULL && mk_message(37) == NULL && mk_name(UINT32_MAX) == NULL);
	return 0;
}

static int statuses(void)
{
	static const struct {
		uint32_t status;
		int error;
		const char *about;
	} each[] = { { MK_DONE, 0, "done" }, { MK_REFUSED, EBUSY, "refused" }, { MK_FAULT, EBUSY, "not a command" },
		{ MK_TOO_SMALL, ERANGE, "buffer" }, { MK_OUT_OF_MEMORY, ENOMEM, "memory" }, { MK_SKIPPED, 0, "line" },
		{ MK_CLOSED, EBADF, "no engine" }, { MK_BUSY, EDEADLK, "this thread" },
		{ MK_TIMED_OUT, ETIMEDOUT, "nothing has changed" }, { MK_FAILED, EIO, "mk_fail" },
		{ MK_WOULD_BLOCK, EAGAIN, "another thread" } };
	for (size_t i = 0; i < sizeof each / sizeof *each; i++) {
		CHECK(mk_status_errno(each[i].status, MK_ROOT_FIXED) == each[i].error);
		CHECK(strstr(mk_status_message(each[i].status), each[i].about) != NULL);
		for (size_t other = 0; other < i; other++)
			CHECK(strcmp(mk_status_message(each[i].status), mk_status_message(each[other].status)) != 0);
	}
	CHECK(mk_status_message(MK_WOULD_BLOCK - 1) == NULL && mk_status_message(MK_WOULD_BLOCK + 1) == NULL);
	return 0;
}

/* The first two are too long; a name that is too deep is refused as by a limit; no other can be the name of a group. */
static int faults_of_paths(void)
{
	static const struct {
		int error;
		const char *about;
	} each[] = { [0] = { 0, "a path" },
		[MK_NOT_ROOTED] = { EINVAL, "begins with a slash" },
		[MK_PATH_TOO_LONG] = { ENAMETOOLONG, "path has more than 4,095 bytes" },
		[MK_TOO_DEEP] = { EAGAIN, "32 names" },
		[MK_EMPTY_NAME] = { EINVAL, "empty" },
		[MK_BAD_BYTE] = { EINVAL, "this byte" },
		[MK_NAME_TOO_LONG] = { ENAMETOOLONG, "name has more than 255 bytes" },
		[MK_DOT_NAME] = { EINVAL, "`..`" },
		[MK_RESERVED] = { EINVAL, "`cgroup.` or `pids.`" } };
	for (uint32_t fault = 0; fault <= MK_RESERVED; fault++) {
		CHECK(mk_path_errno(fault) == each[fault].error && strstr(mk_path_message(fault), each[fault].about) != NULL);
		for (uint32_t other = 0; other < fault; other++)
			CHECK(strcmp(mk_path_message(fault), mk_path_message(other)) != 0);
	}
	return 0;
}

/* ---- the table of files: which the root has, and which can be read and written, by what the calls answer */

static bool root_has(const char *file)
{
	return mk_read(&h, "/", file, text, sizeof text, &info) == MK_DONE;
}

/* Those of a mount that a hierarchy has not are here by hand. */
static const mk_file added[] = { { "cgroup.controllers", true, true, false, "pids\n" },
	{ "cgroup.freeze", false, true, true, NULL }, { "cgroup.subtree_control", true, true, true, "pids\n" },
	{ "cgroup.threads", true, true, false, NULL }, { "cgroup.type", false, true, true, "domain\n" },
	{ "cpu.stat", true, true, false, "usage_usec 0\nuser_usec 0\nsystem_usec 0\n" } };

static bool has_text(const mk_file *it, const char *constant)
{
	return constant == NULL ? it->constant == NULL : it->constant != NULL && strcmp(it->constant, constant) == 0;
}

static int files(void)
{
	const mk_file *it;
	size_t count = 0, more = 0;
	for (; (it = mk_file_at(count)) != NULL; count++) {
		CHECK(count == 0 || strcmp(mk_file_at(count - 1)->name, it->name) < 0);
		const mk_file *want = more < sizeof added / sizeof *added ? &added[more] : NULL;
		if (want != NULL && strcmp(it->name, want->name) == 0) {
			more++;
			CHECK(has_text(it, want->constant) && it->on_root == want->on_root && it->readable == want->readable &&
				it->writable == want->writable);
			continue;
		}
		CHECK(it->constant == NULL);
		uint32_t status = mk_read(&h, "/a", it->name, text, sizeof text, &info);
		CHECK(it->readable == (status == MK_DONE) && (it->readable || info.code == MK_DIRECTION));
		CHECK(root_has(it->name) == (it->on_root && it->readable));
		status = mk_write(&h, "/a", it->name, "x", &info);
		CHECK(status == MK_FAULT && info.code == (it->writable ? MK_VALUE : MK_DIRECTION));
	}
	CHECK(count == 17 && more == sizeof added / sizeof *added && mk_file_at(count + 1) == NULL &&
		mk_file_at(SIZE_MAX) == NULL);
	return 0;
}

/* ---- what mk_put takes */

static uint32_t put(const char *file, const char *data, size_t size)
{
	return mk_put(&h, "/a", file, data, size, 2, &info);
}

/* each digit of each base, in both cases */
static int digits(void)
{
	static const char hexadecimal[] = "0123456789abcdef", upper[] = "0123456789ABCDEF";
	char data[16], want[16];
	for (int high = 0; high < 16; high++)
		for (int low = 0; low < 16; low++) {
			snprintf(want, sizeof want, "%d\n", high * 16 + low);
			for (int spelling = 0; spelling < 4; spelling++) {
				const char *letters = spelling % 2 == 0 ? hexadecimal : upper;
				snprintf(data, sizeof data, "0%c%c%c", spelling < 2 ? 'x' : 'X', letters[high], letters[low]);
				CHECK(done(put("pids.max", data, strlen(data))));
				CHECK(done(mk_read(&h, "/a", "pids.max", text, sizeof text, &info)) && strcmp(text, want) == 0);
			}
			snprintf(data, sizeof data, "0%o", (unsigned)(high * 16 + low));
			CHECK(done(put("pids.max", data, strlen(data))));
			CHECK(done(mk_read(&h, "/a", "pids.max", text, sizeof text, &info)) && strcmp(text, want) == 0);
		}
	for (const char *wrong = "gG@`/:"; *wrong != 0; wrong++) {
		snprintf(data, sizeof data, "0x1%c", *wrong);
		CHECK(put("pids.max", data, strlen(data)) == MK_FAULT && info.code == MK_VALUE && info.error == EINVAL);
	}
	return 0;
}

static bool is_taken(const char *file, const char *data, size_t size)
{
	return done(put(file, data, size));
}

static bool is_refused(const char *file, const char *data, size_t size, int error)
{
	return put(file, data, size) == MK_FAULT && info.code == MK_VALUE && info.error == error;
}

/* As in the mount a constant takes its current value or nothing, with the kernel's blanks around it, up to a zero byte. */
static int constants(void)
{
	static const char *const each[][2] = { { "cgroup.subtree_control", "+pids" }, { "cgroup.type", "domain" } };
	static const char blanks[] = " \t\r\n\v\f\xa0", others[] = "1x+_\b\x1f\x9f\xa1";
	static char page[4097];
	memset(page, ' ', sizeof page);
	for (size_t i = 0; i < sizeof each / sizeof *each; i++) {
		const char *file = each[i][0], *value = each[i][1];
		size_t size = strlen(value);
		char data[32];
		CHECK(is_taken(file, "", 0) && is_taken(file, value, size) && is_taken(file, blanks, strlen(blanks)));
		for (const char *blank = blanks; *blank != 0; blank++) {
			snprintf(data, sizeof data, "%c%c%s%c%c", *blank, *blank, value, *blank, *blank);
			CHECK(is_taken(file, data, size + 4) && is_taken(file, data + 2, size + 1) &&
				is_taken(file, data, size + 2) && is_taken(file, data, 1));
			snprintf(data, sizeof data, "%s%c%s", value, *blank, value);
			CHECK(is_refused(file, data, 2 * size + 1, EOPNOTSUPP));
		}
		for (const char *other = others; *other != 0; other++) {
			snprintf(data, sizeof data, "%c%s%c", *other, value, *other);
			CHECK(is_refused(file, data, size + 1, EOPNOTSUPP) && is_refused(file, data + 1, size + 1, EOPNOTSUPP));
			CHECK(is_refused(file, data, 1, EOPNOTSUPP));
		}
		snprintf(data, sizeof data, "%s%c%s", value, 0, "x");
		CHECK(is_taken(file, data, size + 1) && is_taken(file, data, size + 2) && is_taken(file, data + size, 1));
		CHECK(size == 1 || is_refused(file, value, size - 1, EOPNOTSUPP));
		CHECK(is_taken(file, page, 4096) && is_refused(file, page, 4097, E2BIG));
	}
	return 0;
}

int main(void)
{
	int (*const parts[])(
		void) = { commands, reads, small, again, codes, statuses, faults_of_paths, files, digits, constants };
	if (mk_open(&h) != MK_DONE)
		return 1;
	return run_and_close(parts, sizeof parts / sizeof *parts);
}
