/* Arguments of any length and content: each is one word, which is judged whole. Exits with the number of the first check that fails, or
   0, and prints how many held. Texts are allocated to the byte, so that the sanitizers see a read beyond one. */
#include "check.h"

static void free_text(char **text)
{
	free(*text);
}

#define TEXT char *__attribute__((cleanup(free_text)))

/* `first`, then `count` times `middle`, then `last` */
static char *text_of(const char *first, char middle, size_t count, const char *last)
{
	size_t before = strlen(first), after = strlen(last);
	char *text = malloc(before + count + after + 1);
	if (text == NULL)
		abort();
	memcpy(text, first, before);
	memset(text + before, middle, count);
	memcpy(text + before + count, last, after + 1);
	return text;
}

static bool fault(uint32_t status, uint32_t code)
{
	return status == MK_FAULT && info.code == code && info.len == 0;
}

static bool limit_is(uint64_t want)
{
	uint64_t value = 0;
	mk_info own;
	return mk_limit(&h, "/a", &value, &own) == MK_DONE && value == want;
}

/* Lengths at which something could be cut: around buffers, and the longest name, path and line. */
static const size_t lengths[] = { 1, 2, 22, 23, 24, 126, 127, 128, 253, 254, 255, 256, 257, 258, 259, 510, 511, 512,
	513, 519, 520, 521, 1023, 1024, 4085, 4087, 4094, 4095, 4096, 4097, 8000, 8187, 8190, 8191, 8192, 8193, 8194, 8195,
	9000, 12000, 16384, 65536, 1000000 };
enum { LENGTHS = sizeof lengths / sizeof *lengths };

static int values(void)
{
	static const char blanks[] = " \t\r\n";
	for (size_t i = 0; i < LENGTHS; i++) {
		for (const char *blank = blanks; *blank != 0; blank++) {
			TEXT cut = text_of("1", *blank, lengths[i], "no");
			TEXT two = text_of("1", *blank, lengths[i], "1");
			TEXT padded = text_of("", *blank, lengths[i], "7");
			TEXT trailing = text_of("8", *blank, lengths[i], "");
			TEXT only = text_of("", *blank, lengths[i], "");
			CHECK(fault(mk_write(&h, "/a", "cgroup.kill", cut, &info), MK_VALUE));
			CHECK(fault(mk_write(&h, "/a", "cgroup.kill", two, &info), MK_VALUE));
			CHECK(fault(mk_write(&h, "/a", "pids.max", cut, &info), MK_VALUE) &&
				fault(mk_write(&h, "/a", "pids.max", only, &info), MK_VALUE));
			CHECK(done(mk_write(&h, "/a", "pids.max", padded, &info)) && limit_is(7));
			CHECK(done(mk_write(&h, "/a", "pids.max", trailing, &info)) && limit_is(8));
		}
		TEXT digits = text_of("1", '1', lengths[i] + 6, "");
		TEXT zeros = text_of("", '0', lengths[i], "5");
		TEXT letters = text_of("max", 'x', lengths[i], "");
		CHECK(fault(mk_write(&h, "/a", "pids.max", digits, &info), MK_VALUE) &&
			fault(mk_write(&h, "/a", "pids.max", zeros, &info), MK_VALUE));
		CHECK(fault(mk_write(&h, "/a", "pids.max", letters, &info), MK_VALUE) &&
			fault(mk_write(&h, "/a", "cgroup.kill", zeros, &info), MK_VALUE));
	}
	char where[64];
	CHECK(mk_where(&h, 2, where, sizeof where, &info) == MK_DONE && strcmp(where, "0::/a\n") == 0);
	return 0;
}

/* the longest path */
static char *deepest(void)
{
	char *path = text_of("", 'n', PATH_BYTES, "");
	for (size_t i = 0; i < PATH_BYTES; i += NAME_BYTES + 1)
		path[i] = '/';
	return path;
}

/* the first fault counts, however long the words after it are */
static int order(void)
{
	char text[64];
	mk_text it;
	TEXT deep = deepest();
	for (size_t i = 0; i < LENGTHS; i++)
		for (size_t j = 0; j < LENGTHS; j++) {
			TEXT path = text_of("/a/", 'x', lengths[i] + NAME_BYTES + 1, "");
			TEXT file = text_of("pids.max", 'x', lengths[j], "");
			TEXT value = text_of("5", '5', lengths[j] + 6, "");
			CHECK(fault(mk_write(&h, path, file, value, &info), MK_PATH) &&
				fault(mk_read(&h, path, file, text, sizeof text, &info), MK_PATH));
			CHECK(fault(mk_write(&h, "/a", file, value, &info), MK_FILE) &&
				fault(mk_read(&h, "/a", file, text, sizeof text, &info), MK_FILE));
			CHECK(fault(mk_write(&h, "/a", "pids.current", value, &info), MK_DIRECTION));
			CHECK(fault(mk_write(&h, deep, file, value, &info), MK_FILE) &&
				fault(mk_read(&h, deep, file, text, sizeof text, &info), MK_FILE));
			CHECK(fault(mk_write(&h, deep, "pids.max", value, &info), MK_VALUE));
			CHECK(fault(mk_write(&h, "/a", "pids.max", value, &info), MK_VALUE));
			if (i > 0)
				continue;
			CHECK(fault(mk_mkdir(&h, path, &info), MK_PATH) && fault(mk_rmdir(&h, path, &info), MK_PATH) &&
				fault(mk_kill(&h, path, &info), MK_PATH));
			CHECK(fault(mk_attach(&h, path, 1, &info), MK_PATH) &&
				fault(mk_put(&h, path, "pids.max", "5", 1, 1, &info), MK_PATH));
			size_t path_size = strlen(path) + 1, file_size = strlen(file) + 1;
			TEXT names = text_of("", 0, path_size + file_size + 3, "");
			memcpy(names, path, path_size);
			memcpy(names + path_size, file, file_size);
			CHECK(done(mk_read_many(&h, names, 1, &it, text, sizeof text, &info)) && it.status == MK_FAULT &&
				it.code == MK_PATH);
			memcpy(names, "/a", 3);
			memcpy(names + 3, file, file_size);
			CHECK(done(mk_read_many(&h, names, 1, &it, text, sizeof text, &info)) && it.status == MK_FAULT &&
				it.code == MK_FILE);
		}
	return 0;
}

/* the longest words that are valid */
static int longest(void)
{
	char text[64];
	TEXT name = text_of("/", 'n', NAME_BYTES, "");
	CHECK(done(mk_mkdir(&h, name, &info)) && done(mk_rmdir(&h, name, &info)));
	TEXT deep = deepest();
	for (size_t i = NAME_BYTES + 1; i <= PATH_BYTES; i += NAME_BYTES + 1) {
		char *end = deep + (i < PATH_BYTES ? i : PATH_BYTES), was = *end;
		*end = 0;
		CHECK(done(mk_mkdir(&h, deep, &info)));
		*end = was;
	}
	CHECK(done(mk_mkdir(&h, deep, &info)) &&
		done(mk_read(&h, deep, "cgroup.max.descendants", text, sizeof text, &info)) && strcmp(text, "max\n") == 0);
	CHECK(
		done(mk_write(&h, deep, "cgroup.max.descendants", "2147483646", &info)) && done(mk_attach(&h, deep, 1, &info)));
	CHECK(done(mk_write(&h, "/", "cgroup.procs", "1", &info)));
	TEXT too_long = text_of(deep, 'n', 1, "");
	CHECK(fault(mk_read(&h, too_long, "cgroup.procs", text, sizeof text, &info), MK_PATH) &&
		fault(mk_rmdir(&h, too_long, &info), MK_PATH));
	return 0;
}

/* ---- words with their lengths */

static uint8_t out[16384], other[16384];

static uint32_t words(const char *text, size_t count, const size_t *lens, mk_info *told)
{
	return mk_words(&h, 7, text, lens, count, out, sizeof out, told);
}

/* Words that are separated by '|', which stands for nothing else here. */
static uint32_t split(const char *text, size_t len, mk_info *told)
{
	char joined[512];
	size_t lens[16] = { 0 }, count = 1, size = 0;
	for (size_t i = 0; i < len; i++)
		if (text[i] == '|') {
			count++;
		} else {
			joined[size++] = text[i];
			lens[count - 1]++;
		}
	return words(joined, count, lens, told);
}

/* the same answer as for a line, and the same state after it */
static bool as_line(const char *text, const char *line)
{
	mk_info told;
	size_t before, after;
	if (mk_depth(&h, &before) != MK_DONE)
		return false;
	uint32_t status = split(text, strlen(text), &info);
	if (mk_depth(&h, &after) != MK_DONE)
		return false;
	if (after > before && mk_undo_to(&h, before, &told) != MK_DONE)
		return false;
	uint32_t want = mk_line(&h, 7, (const uint8_t *)line, strlen(line), other, sizeof other, &told);
	return status == want && told.len == info.len && told.code == info.code && told.error == info.error &&
		memcmp(out, other, told.len) == 0;
}

static int answers(void)
{
	CHECK(as_line("mkdir|/a", "mkdir /a") && as_line("mkdir|/b", "mkdir /b") && as_line("mkdir|/c/d", "mkdir /c/d"));
	CHECK(as_line("write|/a|cgroup.max.depth|0", "write /a cgroup.max.depth 0") &&
		as_line("mkdir|/a/x", "mkdir /a/x") && info.code == MK_DEPTH);
	CHECK(info.len == strlen("7 refused depth /a\n") && memcmp(out, "7 refused depth /a\n", info.len) == 0);
	CHECK(
		as_line("write|/b|pids.max| \t3\r\n", "write /b pids.max 3") && as_line("cat|/b|pids.max", "cat /b pids.max"));
	CHECK(as_line("fork|1|3", "fork 1 3") && as_line("exit|9", "exit 9") && as_line("where|3", "where 3"));
	CHECK(split("undo", 4, &info) == MK_DONE && info.len == strlen("7 ok\n| fork 1 3\n") &&
		memcmp(out, "7 ok\n| fork 1 3\n", info.len) == 0);
	CHECK(as_line("", "?") && info.code == MK_SYNTAX && as_line("mkdir", "mkdir") &&
		as_line("mkdir|/a|/b", "mkdir /a /b"));
	CHECK(as_line("write|/b|pids.max|3|4|5|6|7", "write /b pids.max 3 4") && as_line("mkdir /x", "?") &&
		as_line("wr|/b|pids.max|3", "wr /b pids.max 3"));
	CHECK(as_line("mkdir|/x y", "mkdir ?") && info.code == MK_PATH && as_line("mkdir|/x\n", "mkdir ?") &&
		as_line("mkdir|", "mkdir ?"));
	CHECK(as_line("cat|/b|pids.max ", "cat /b ?") && info.code == MK_FILE &&
		as_line("write|/b|pids.max|3 4", "write /b pids.max ?") && info.code == MK_VALUE);
	CHECK(as_line("exit|-1", "exit -1") && as_line("exit| 1", "exit ?") && info.code == MK_VALUE &&
		as_line("fork|1|99999999999999999999", "fork 1 99999999999999999999"));
	return 0;
}

/* a path may be longer than every other word */
static int long_path(void)
{
	TEXT upper = text_of("/", 'u', 200, "");
	TEXT lower = text_of(upper, '/', 1, upper + 1);
	TEXT line = text_of("mkdir", 0, 0, lower);
	CHECK(done(mk_mkdir(&h, upper, &info)));
	CHECK(words(line, 2, (const size_t[]){ 5, strlen(lower) }, &info) == MK_DONE);
	CHECK(mk_has_group(&h, (const uint8_t *)lower, strlen(lower), &info) == MK_DONE);
	return 0;
}

/* a zero byte is a byte of the word, and ends nothing */
static int zero_bytes(void)
{
	mk_info told;
	size_t depth, now;
	CHECK(mk_depth(&h, &depth) == MK_DONE);
	CHECK(split("mkdir|/z\0", 9, &told) == MK_FAULT && told.code == MK_PATH &&
		split("rmdir|/a\0/b", 11, &told) == MK_FAULT && told.code == MK_PATH);
	CHECK(split("cat|/b|pids.max\0", 16, &told) == MK_FAULT && told.code == MK_FILE);
	CHECK(split("write|/b|pids.max|5\0", 20, &told) == MK_FAULT && told.code == MK_VALUE &&
		split("write|/b|pids.max|\0", 19, &told) == MK_FAULT && told.code == MK_VALUE);
	CHECK(split("mkdir\0|/z", 9, &told) == MK_FAULT && told.code == MK_SYNTAX && mk_depth(&h, &now) == MK_DONE &&
		now == depth);
	/* no words, and a word that is longer than a line */
	CHECK(words("", 0, &depth, &told) == MK_SKIPPED && told.len == 0);
	TEXT longer = text_of("mkdir/a", 'x', 1000000, "");
	const size_t lens[] = { 5, 1000002 };
	CHECK(words(longer, 2, lens, &told) == MK_FAULT && told.code == MK_PATH);
	CHECK(mk_words(&h, 7, "mkdir/zz", (const size_t[]){ 5, 3 }, 2, out, 4, &told) == MK_TOO_SMALL && told.needed == 5 &&
		mk_depth(&h, &now) == MK_DONE && now == depth);
	return 0;
}

int main(void)
{
	int (*const parts[])(void) = { values, order, longest, answers, long_path, zero_bytes };
	if (mk_open(&h) != MK_DONE || mk_mkdir(&h, "/a", &info) != MK_DONE)
		return 1;
	if (mk_fork(&h, 1, 2, &info) != MK_DONE || mk_attach(&h, "/a", 2, &info) != MK_DONE)
		return 1;
	return run_and_close(parts, sizeof parts / sizeof *parts);
}
