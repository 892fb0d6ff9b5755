/* What the parser of the kernel's numbers reads, which the mount compiles too; and mk_put writes that. The table of files is compared by python/tests/test_mounted.py. Exits with 1 at the first difference; prints how many
   comparisons held. */
#include "makhloeum.h"
#include "number_parser.h"
#include <errno.h>
#include <stdio.h>
#include <stdlib.h>
#include <string.h>

enum { BEFORE = 3 }; /* commands that make the group with its process */

static long held;
static mk_handle h;
static mk_info info;
static char text[256];

#define CHECK(holds, ...)                                            \
	do {                                                             \
		held++;                                                      \
		if (!(holds)) {                                              \
			fprintf(stderr, "mounted.c:%d: %s: ", __LINE__, #holds); \
			fprintf(stderr, __VA_ARGS__);                            \
			fputc('\n', stderr);                                     \
			exit(1);                                                 \
		}                                                            \
	} while (0)

/* the files that take values, and what they take */
static const struct taking {
	const char *name;
	enum value value;
	bool readable;
} files[] = { { "cgroup.procs", A_PID, true }, { "cgroup.max.depth", A_COUNT, true },
	{ "cgroup.max.descendants", A_COUNT, true }, { "pids.max", A_PIDS_LIMIT, true }, { "cgroup.kill", A_ONE, false } };
enum { FILES = sizeof files / sizeof *files };

static void table(void)
{
	const mk_file *file;
	for (size_t i = 0; (file = mk_file_at(i)) != NULL; i++) {
		bool takes = strcmp(file->name, "cgroup.freeze") == 0; /* see freezer.c */
		for (size_t at = 0; at < FILES; at++)
			takes |= strcmp(file->name, files[at].name) == 0;
		CHECK(i == 0 || strcmp(mk_file_at(i - 1)->name, file->name) < 0, "%s", file->name);
		CHECK(takes == (file->writable && file->constant == NULL), "%s", file->name);
	}
}

/* ---- values */

static const char *const words[] = { "", "0", "1", "2", "9", "max", "MAX", "maxx", "-0", "-1", "+5", "+-5", "08", "010",
	"0x", "0x10", "0X1f", "-0x1", "0xg", "1 2", "1.0", "x", "1x", "2147483646", "2147483647", "2147483648", "4194303",
	"4194304", "4194305", "9223372036854775807", "9223372036854775808", "-9223372036854775808", "-9223372036854775809",
	"18446744073709551615", "18446744073709551616", "184467440737095516160", "-184467440737095516161",
	"99999999999999999999x", "0xffffffffffffffffff", "0x100000000000000001", "02000000000000000000001",
	"0777777777777777777777777", "+pids", "pids", "-pids", "+pids +pids", "domain", "threaded", "0\n", "\v5\f", "\2407",
	"7\240", "3\n\n" };
static const char *const blanks[] = { "", " ", "\n", "\t\r\n" };

/* the errno of a write to the mount's file, with what the engine says to the word */
static int mount_error(const struct taking *file, const char *data, size_t size)
{
	char said[SAID_MAX];
	if (size == 0)
		return 0; /* the kernel doesn't tell a file system of it */
	int error = -written_value(file->value, data, size, said);
	if (error != 0)
		return error;
	if (file->value == A_PID && strcmp(said, "0") == 0)
		snprintf(said, sizeof said, "1"); /* the caller */
	return mk_write(&h, "/a", file->name, said, &info) == MK_DONE ? 0 : info.error;
}

static void compare(const struct taking *file, const char *data, size_t size)
{
	char want[sizeof text] = "";
	int error = mount_error(file, data, size);
	if (file->readable)
		mk_read(&h, "/a", file->name, want, sizeof want, &info);
	mk_undo_to(&h, BEFORE, &info);
	uint32_t status = mk_put(&h, "/a", file->name, data, size, 1, &info);
	CHECK((status == MK_DONE) == (error == 0) && info.error == error, "%s: %.40s: %d, and %d in the mount", file->name,
		data, info.error, error);
	if (file->readable)
		CHECK(mk_read(&h, "/a", file->name, text, sizeof text, &info) == MK_DONE && strcmp(text, want) == 0,
			"%s: %.40s: %s, and %s", file->name, data, text, want);
	mk_undo_to(&h, BEFORE, &info);
}

static void values(void)
{
	static char page[5000];
	memset(page, ' ', sizeof page);
	page[0] = '1';
	for (const struct taking *file = files; file < files + FILES; file++) {
		for (size_t word = 0; word < sizeof words / sizeof *words; word++)
			for (size_t front = 0; front < 4; front++)
				for (size_t back = 0; back < 4; back++) {
					char data[128];
					int size = snprintf(data, sizeof data, "%s%s%s", blanks[front], words[word], blanks[back]);
					compare(file, data, (size_t)size);
					compare(file, data, (size_t)size + 1); /* with the zero byte */
				}
		for (size_t size = 4094; size < 4099; size++)
			compare(file, page, size);
	}
}

/* what the kernel reads, or its errno */
static const struct reading {
	enum value value;
	const char *data, *said;
	int error;
} readings[] = {
	{ A_PID, "0", "0", 0 },
	{ A_PID, "4194303", "4194303", 0 },
	{ A_PID, "4194304", NULL, ESRCH },
	{ A_PID, "2147483647", NULL, ESRCH },
	{ A_PID, "2147483648", NULL, EINVAL },
	{ A_PID, "-1", NULL, EINVAL },
	{ A_PID, "99999999999999999999", NULL, EINVAL },
	{ A_PID, "max", NULL, EINVAL },
	{ A_COUNT, "max", "max", 0 },
	{ A_COUNT, "maxx", NULL, EINVAL },
	{ A_COUNT, "2147483647", "2147483647", 0 },
	{ A_COUNT, "2147483648", NULL, ERANGE },
	{ A_COUNT, "-1", NULL, ERANGE },
	{ A_COUNT, "-9223372036854775809", NULL, ERANGE },
	{ A_COUNT, "18446744073709551621", NULL, ERANGE },
	{ A_COUNT, "99999999999999999999x", NULL, ERANGE },
	{ A_COUNT, "0x100000000000000001", NULL, ERANGE },
	{ A_COUNT, "02000000000000000000001", NULL, ERANGE },
	{ A_PIDS_LIMIT, "max", "max", 0 },
	{ A_PIDS_LIMIT, "4194304", "4194304", 0 },
	{ A_PIDS_LIMIT, "4194305", NULL, EINVAL },
	{ A_PIDS_LIMIT, "-1", NULL, EINVAL },
	{ A_PIDS_LIMIT, "9223372036854775807", NULL, EINVAL },
	{ A_PIDS_LIMIT, "9223372036854775808", NULL, ERANGE },
	{ A_PIDS_LIMIT, "-9223372036854775808", NULL, EINVAL },
	{ A_PIDS_LIMIT, "-9223372036854775809", NULL, ERANGE },
	{ A_PIDS_LIMIT, "", NULL, EINVAL },
	{ A_PIDS_LIMIT, "5x", NULL, EINVAL },
	{ A_PIDS_LIMIT, "5 5", NULL, EINVAL },
	{ A_PIDS_LIMIT, "010", "8", 0 },
	{ A_PIDS_LIMIT, "08", NULL, EINVAL },
	{ A_PIDS_LIMIT, "0x1f", "31", 0 },
	{ A_PIDS_LIMIT, "0X1F", "31", 0 },
	{ A_PIDS_LIMIT, "0x", NULL, EINVAL },
	{ A_PIDS_LIMIT, "0xg", NULL, EINVAL },
	{ A_PIDS_LIMIT, "+5", "5", 0 },
	{ A_PIDS_LIMIT, "+-5", NULL, EINVAL },
	{ A_PIDS_LIMIT, "-+5", NULL, EINVAL },
	{ A_PIDS_LIMIT, "-0", "0", 0 },
	{ A_PIDS_LIMIT, "-0x0", "0", 0 },
	{ A_PIDS_LIMIT, "\v5\f", "5", 0 },
	{ A_PIDS_LIMIT, "\2405\n\n", "5", 0 },
	{ A_ONE, "1", "1", 0 },
	{ A_ONE, "0", NULL, ERANGE },
	{ A_ONE, "2", NULL, ERANGE },
	{ A_SWITCH, "0", "0", 0 },
	{ A_SWITCH, "1", "1", 0 },
	{ A_SWITCH, "2", NULL, ERANGE },
	{ NO_CHANGE, " domain\n", "domain", 0 },
	{ NO_CHANGE, "1234567890123456789012345", NULL, EOPNOTSUPP },
	{ NOTHING, "1", NULL, EINVAL },
	{ WRITES, "1", NULL, EINVAL },
};

static void what_the_kernel_reads(void)
{
	static char page[4097] = "7";
	char said[SAID_MAX];
	for (size_t i = 0; i < sizeof readings / sizeof *readings; i++) {
		const struct reading *it = &readings[i];
		int error = -written_value(it->value, it->data, strlen(it->data), said);
		CHECK(error == it->error && (error != 0 || strcmp(said, it->said) == 0), "%s: %d", it->data, error);
	}
	memset(page + 1, ' ', sizeof page - 1);
	CHECK(written_value(A_PIDS_LIMIT, page, sizeof page - 1, said) == 0 && strcmp(said, "7") == 0, "a page");
	CHECK(written_value(A_PIDS_LIMIT, page, sizeof page, said) == -E2BIG, "more than a page");
	CHECK(written_value(A_PIDS_LIMIT, "7\0x", 3, said) == 0 && strcmp(said, "7") == 0, "what follows a zero byte");
	CHECK(written_value(A_PIDS_LIMIT, "71", 1, said) == 0 && strcmp(said, "7") == 0, "a part of a text");
}

static void random_values(void)
{
	static const char letters[] = "0123456789abcdefxX+- \n\tmaxm";
	unsigned seed = 1;
	for (int round = 0; round < 5000; round++)
		for (const struct taking *file = files; file < files + FILES; file++) {
			char data[32];
			size_t size = 0;
			seed = seed * 1103515245u + 12345u;
			for (size_t most = (seed >> 16) % 12; size < most; size++) {
				seed = seed * 1103515245u + 12345u;
				data[size] = letters[(seed >> 16) % (sizeof letters - 1)];
			}
			data[size] = 0;
			compare(file, data, size);
		}
}

static int put(const char *path, const char *file, const char *data, int64_t self)
{
	return mk_put(&h, path, file, data, strlen(data), self, &info) == MK_DONE ? 0 : info.error;
}

/* A file that the root lacks is not there, whatever is written, as a mount's look-up says; it is refused as by mk_write. */
static void lacking(void)
{
	static const char *const data[] = { "", "0", "1", "max", "x", "domain", "+pids", "-1" };
	static const char *const unknown[] = { "none", "", "pids.ma", "pids.maxx", "cgroup", "pids.max\n", "cgroup.kill/" };
	const mk_file *file;
	int count = 0;
	for (size_t i = 0; (file = mk_file_at(i)) != NULL; i++) {
		if (file->on_root)
			continue;
		count++;
		for (size_t at = 0; at < sizeof data / sizeof *data; at++) {
			uint32_t status = mk_put(&h, "/", file->name, data[at], strlen(data[at]), 1, &info);
			CHECK(status == MK_REFUSED && info.code == MK_NO_FILE && info.error == ENOENT, "%s: %s: %u, %u", file->name,
				data[at], (unsigned)status, (unsigned)info.code);
		}
	}
	CHECK(count == 9, "%d files are not on the root", count);
	CHECK(mk_write(&h, "/", "pids.max", "1", &info) == MK_REFUSED && info.code == MK_NO_FILE && info.error == ENOENT,
		"the same of mk_write");
	for (size_t i = 0; i < sizeof unknown / sizeof *unknown; i++)
		for (int on_root = 0; on_root < 2; on_root++) {
			uint32_t status = mk_put(&h, on_root ? "/" : "/a", unknown[i], "1", 1, 1, &info);
			CHECK(status == MK_FAULT && info.code == MK_FILE && info.error == ENOENT, "%s: %u, %u", unknown[i],
				(unsigned)status, (unsigned)info.code);
		}
}

static void others(void)
{
	CHECK(put("/a", "none", "1", 1) == ENOENT && info.code == MK_FILE, "a file that is not there");
	CHECK(put("/c", "pids.max", "1", 1) == ENOENT && info.code == MK_NO_GROUP, "a group that is not there");
	CHECK(put("/c", "cpu.stat", "1", 1) == ENOENT && info.code == MK_NO_GROUP,
		"a constant of a group that is not there");
	CHECK(put("/a", "pids.current", "1", 1) == EINVAL && info.code == MK_DIRECTION &&
			put("/a", "cpu.stat", "\n", 1) == EINVAL,
		"files that are read");
	CHECK(put("/a", "cpu.stat", "", 1) == 0 && put("/a", "pids.current", "", 1) == 0 &&
			put("/", "cgroup.procs", "", 9) == 0 && put("/a", "cgroup.freeze", "", 1) == 0 &&
			put("/a", "cgroup.type", "", 1) == 0 && put("/c", "pids.max", "", 1) == ENOENT,
		"empty writes");
	CHECK(put("/a", "cgroup.type", "domain\n", 1) == 0 && put("/a", "cgroup.type", "threaded", 1) == EOPNOTSUPP,
		"a constant");
	CHECK(put("/", "cgroup.subtree_control", "+pids\n", 1) == 0 &&
			put("/", "cgroup.subtree_control", "+memory", 1) == EOPNOTSUPP,
		"another");
	CHECK(put("/a", "cgroup.type", "domain", 1) == 0 && put("/a", "cgroup.type", "threaded", 1) == EOPNOTSUPP,
		"a third");
	CHECK(put("/a", "cgroup.procs", "0\n", 2) == 0 && mk_where(&h, 2, text, sizeof text, &info) == MK_DONE,
		"the caller's own process");
	CHECK(mk_fork(&h, 1, 4194303, &info) == MK_DONE && put("/a", "cgroup.procs", "4194303", 1) == 0,
		"the greatest pid");
	CHECK(put("/a", "cgroup.type", "domai", 1) == EOPNOTSUPP && put("/a", "cgroup.type", "domain ", 1) == 0,
		"a part of a constant");
	CHECK(put("/a", "cgroup.type", "domainx", 1) == EOPNOTSUPP &&
			put("/", "cgroup.subtree_control", "+", 1) == EOPNOTSUPP,
		"and more");
	CHECK(strcmp(text, "0::/a\n") == 0 && put("/a", "cgroup.procs", "0", 9) == ESRCH,
		"%s, and a caller that is no process", text);
	char name[300] = "/", path[5000] = "/";
	memset(name + 1, 'x', 256);
	for (size_t at = 1; at < 4096; at += 2)
		memcpy(path + at, "x/", 3);
	path[4096] = 0;
	CHECK(put(name, "pids.max", "1", 1) == ENOENT && info.code == MK_PATH &&
			put(path, "cgroup.type", "domain", 1) == ENAMETOOLONG && info.code == MK_PATH,
		"a group whose name or path is too long");
	CHECK(put("/a b", "pids.max", "x", 1) == ENOENT && info.code == MK_PATH &&
			put("/pids.x", "none", "1", 1) == ENOENT && put("/a/", "pids.max", "1", 1) == ENOENT &&
			info.code == MK_PATH,
		"a group that no hierarchy can have");
	CHECK(mk_path_errno(0) == 0 && mk_path_errno(MK_NAME_TOO_LONG) == ENAMETOOLONG &&
			mk_path_errno(MK_PATH_TOO_LONG) == ENAMETOOLONG,
		"long names");
	CHECK(mk_path_errno(MK_TOO_DEEP) == EAGAIN && mk_path_errno(MK_RESERVED) == EINVAL &&
			mk_path_errno(MK_BAD_BYTE) == EINVAL,
		"names");
}

int main(void)
{
	if (mk_open(&h) != MK_DONE || mk_mkdir(&h, "/a", &info) != MK_DONE || mk_fork(&h, 1, 2, &info) != MK_DONE ||
		mk_attach(&h, "/a", 2, &info) != MK_DONE)
		return 2;
	table();
	what_the_kernel_reads();
	values();
	random_values();
	if (mk_undo_to(&h, 2, &info) != MK_DONE)
		return 2;
	lacking();
	others();
	printf("%ld\n", held);
	return mk_close(&h) == MK_DONE ? 0 : 2;
}
