/* The call for each command. Exits with the number of the first check that fails, or 0, and prints how many held. */
#include "check.h"

static char text[65536];

static bool refused(uint32_t status, uint32_t code, int error)
{
	return status == (code < MK_SYNTAX ? (uint32_t)MK_REFUSED : (uint32_t)MK_FAULT) && info.code == code &&
		info.error == error && info.len == 0;
}

static bool reads(const char *path, const char *file, const char *want)
{
	return done(mk_read(&h, path, file, text, sizeof text, &info)) && strcmp(text, want) == 0 &&
		info.len == strlen(want);
}

static int commands(void)
{
	CHECK(done(mk_mkdir(&h, "/a", &info)) && done(mk_mkdir(&h, "/b", &info)) && done(mk_mkdir(&h, "/a/x", &info)));
	CHECK(refused(mk_mkdir(&h, "/a", &info), MK_EXISTS, EEXIST) &&
		refused(mk_rmdir(&h, "/a", &info), MK_HAS_CHILDREN, EBUSY));
	CHECK(refused(mk_mkdir(&h, "/c/d", &info), MK_NO_GROUP, ENOENT) &&
		refused(mk_rmdir(&h, "/", &info), MK_ROOT_FIXED, EBUSY));
	CHECK(done(mk_fork(&h, 1, 2, &info)) && refused(mk_fork(&h, 1, 2, &info), MK_PID_IN_USE, EEXIST));
	CHECK(done(mk_attach(&h, "/a/x", 2, &info)) && refused(mk_attach(&h, "/a/x", 9, &info), MK_NO_PROCESS, ESRCH));
	CHECK(refused(mk_attach(&h, "/c", 2, &info), MK_NO_GROUP, ENOENT) &&
		refused(mk_rmdir(&h, "/a/x", &info), MK_HAS_PROCESSES, EBUSY));
	CHECK(done(mk_write(&h, "/a", "pids.max", "1", &info)) && refused(mk_fork(&h, 2, 3, &info), MK_PIDS_MAX, EAGAIN));
	CHECK(done(mk_write(&h, "/a", "pids.max", " 2\n", &info)) && reads("/a", "pids.max", "2\n") &&
		done(mk_fork(&h, 2, 3, &info)));
	CHECK(reads("/a/x", "cgroup.procs", "2\n3\n") && reads("/b", "cgroup.procs", ""));
	CHECK(done(mk_where(&h, 3, text, sizeof text, &info)) && strcmp(text, "0::/a/x\n") == 0);
	CHECK(refused(mk_where(&h, 9, text, sizeof text, &info), MK_NO_PROCESS, ESRCH));
	CHECK(done(mk_exit(&h, 3, &info)) && refused(mk_exit(&h, 3, &info), MK_NO_PROCESS, ESRCH));
	CHECK(done(mk_kill(&h, "/a", &info)) && reads("/a", "pids.current", "0\n") &&
		refused(mk_kill(&h, "/", &info), MK_NO_FILE, ENOENT));
	CHECK(refused(mk_read(&h, "/", "pids.current", text, sizeof text, &info), MK_NO_FILE, ENOENT));
	CHECK(refused(mk_read(&h, "/a", "cgroup.kill", text, sizeof text, &info), MK_DIRECTION, EINVAL));
	return 0;
}

static int words(void)
{
	static const char *const bad[] = { "", " ", "/b ", " /b", "/b\t", "/b\n", "/b\r", "/b pids.max", "/b pids.max 5",
		"x y", "\n", "pids.max " };
	static char longer[9000];
	size_t before, after;
	memset(longer, 'x', sizeof longer - 1);
	longer[0] = '/';
	CHECK(mk_depth(&h, &before) == MK_DONE);
	for (size_t i = 0; i < sizeof bad / sizeof *bad; i++) {
		CHECK(refused(mk_mkdir(&h, bad[i], &info), MK_PATH, EINVAL) &&
			refused(mk_rmdir(&h, bad[i], &info), MK_PATH, EINVAL));
		CHECK(refused(mk_kill(&h, bad[i], &info), MK_PATH, EINVAL) &&
			refused(mk_attach(&h, bad[i], 1, &info), MK_PATH, EINVAL));
		CHECK(refused(mk_read(&h, bad[i], "x y", text, sizeof text, &info), MK_PATH, EINVAL));
		CHECK(refused(mk_write(&h, bad[i], "x y", "5", &info), MK_PATH, EINVAL));
		CHECK(refused(mk_read(&h, "/b", bad[i], text, sizeof text, &info), MK_FILE, ENOENT));
		CHECK(refused(mk_write(&h, "/b", bad[i], "5", &info), MK_FILE, ENOENT));
		CHECK(refused(mk_write(&h, "/b", "pids.max", bad[i], &info), MK_VALUE, EINVAL));
	}
	CHECK(refused(mk_mkdir(&h, longer, &info), MK_PATH, EINVAL) &&
		refused(mk_write(&h, "/b", longer, "5", &info), MK_FILE, ENOENT));
	CHECK(refused(mk_write(&h, "/b", "pids.max", longer, &info), MK_VALUE, EINVAL));
	CHECK(refused(mk_exit(&h, 0, &info), MK_VALUE, EINVAL) && refused(mk_exit(&h, -1, &info), MK_VALUE, EINVAL));
	CHECK(refused(mk_fork(&h, 1, INT64_MAX, &info), MK_VALUE, EINVAL) &&
		refused(mk_fork(&h, INT64_MIN, 5, &info), MK_VALUE, EINVAL));
	CHECK(mk_depth(&h, &after) == MK_DONE && after == before);
	return 0;
}

static int small_texts(void)
{
	CHECK(done(mk_read(&h, "/b", "cgroup.events", text, 22, &info)) && strcmp(text, "populated 0\nfrozen 0\n") == 0);
	CHECK(mk_read(&h, "/b", "cgroup.events", text, 21, &info) == MK_TOO_SMALL && info.needed == 22 &&
		info.error == ERANGE && info.len == 0);
	CHECK(mk_read(&h, "/b", "cgroup.procs", text, 0, &info) == MK_TOO_SMALL && info.needed == 1);
	return 0;
}

/* A text that is longer than the library's own buffer: it needs room for itself and a zero byte, not for the answer, which has
   marks before its lines. */
static int long_texts(int first, int count)
{
	static char want[65536];
	size_t len = 0;
	for (int pid = first; pid < first + count; pid++)
		len += (size_t)snprintf(want + len, sizeof want - len, "%d\n", pid);
	size_t sizes[] = { 0, 1, 5000, len - 1, len };
	CHECK(reads("/b", "cgroup.procs", want));
	for (size_t i = 0; i < sizeof sizes / sizeof *sizes; i++) {
		memset(text, '#', sizeof text);
		CHECK(mk_read(&h, "/b", "cgroup.procs", text, sizes[i], &info) == MK_TOO_SMALL && info.needed == len + 1);
		CHECK(info.len == 0 && info.error == ERANGE && text[sizes[i]] == '#');
	}
	/* the answer, with its first line and its marks, just fits or just doesn't */
	size_t answer = strlen("0 ok\n") + len + 2 * (size_t)count;
	for (size_t size = answer - 2; size < answer + 2; size++) {
		memset(text, '#', sizeof text);
		CHECK(done(mk_read(&h, "/b", "cgroup.procs", text, size, &info)) && info.len == len &&
			strcmp(text, want) == 0 && text[size] == '#');
	}
	for (size_t size = len + 1; size < sizeof text; size += 3001) {
		memset(text, '#', sizeof text);
		CHECK(done(mk_read(&h, "/b", "cgroup.procs", text, size, &info)) && info.len == len && strcmp(text, want) == 0);
		CHECK(text[size] == '#');
	}
	return 0;
}

static int numbers(void)
{
	enum { MANY = 3000 };
	static uint32_t pids[MANY];
	uint64_t value = 9;
	bool populated = true;
	CHECK(done(mk_populated(&h, "/b", &populated, &info)) && !populated && done(mk_current(&h, "/b", &value, &info)) &&
		value == 0);
	for (int pid = 10; pid < 10 + MANY; pid++)
		CHECK(done(mk_fork(&h, 1, pid, &info)) && done(mk_attach(&h, "/b", pid, &info)));
	CHECK(done(mk_populated(&h, "/b", &populated, &info)) && populated && done(mk_current(&h, "/b", &value, &info)) &&
		value == MANY);
	CHECK(done(mk_processes(&h, "/b", pids, MANY, &info)) && info.count == MANY && pids[0] == 10 &&
		pids[MANY - 1] == 9 + MANY);
	for (int i = 1; i < MANY; i++)
		CHECK(pids[i] == pids[i - 1] + 1);
	CHECK(mk_processes(&h, "/b", pids, MANY - 1, &info) == MK_TOO_SMALL && info.needed == MANY && info.count == 0);
	for (size_t room = 0; room < 4; room++) {
		memset(pids, 0xff, sizeof pids);
		CHECK(mk_processes(&h, "/b", pids, room, &info) == MK_TOO_SMALL && pids[room] == UINT32_MAX);
	}
	CHECK(done(mk_processes(&h, "/", pids, 1, &info)) && info.count == 1 && pids[0] == 1);
	CHECK(done(mk_processes(&h, "/a", pids, 0, &info)) && info.count == 0);
	CHECK(long_texts(10, MANY) == 0);
	CHECK(done(mk_kill(&h, "/b", &info)) && done(mk_current(&h, "/b", &value, &info)) && value == 0);
	CHECK(done(mk_peak(&h, "/b", &value, &info)) && value == MANY);
	CHECK(done(mk_limit(&h, "/b", &value, &info)) && value == MK_NO_LIMIT);
	CHECK(done(mk_write(&h, "/b", "pids.max", "4194304", &info)) && done(mk_limit(&h, "/b", &value, &info)) &&
		value == 4194304);
	CHECK(refused(mk_current(&h, "/c", &value, &info), MK_NO_GROUP, ENOENT) && value == 0);
	CHECK(refused(mk_processes(&h, "/c", pids, MANY, &info), MK_NO_GROUP, ENOENT) && info.count == 0);
	CHECK(refused(mk_limit(&h, "/", &value, &info), MK_NO_FILE, ENOENT) &&
		refused(mk_populated(&h, "b", &populated, &info), MK_PATH, EINVAL));
	return 0;
}

static int marks(void)
{
	size_t mark, depth;
	CHECK(mk_depth(&h, &mark) == MK_DONE && done(mk_mkdir(&h, "/m", &info)) && done(mk_fork(&h, 1, 8, &info)) &&
		done(mk_attach(&h, "/m", 8, &info)));
	CHECK(done(mk_undo_to(&h, mark, &info)) && info.count == 3 && mk_depth(&h, &depth) == MK_DONE && depth == mark);
	CHECK(refused(mk_rmdir(&h, "/m", &info), MK_NO_GROUP, ENOENT) && done(mk_undo_to(&h, mark, &info)) &&
		info.count == 0);
	CHECK(refused(mk_undo_to(&h, mark + 1, &info), MK_NOTHING_TO_UNDO, ENODATA));
	CHECK(done(mk_undo_to(&h, 0, &info)) && info.count == mark && reads("/", "cgroup.procs", "1\n") &&
		reads("/", "cgroup.stat", "nr_descendants 0\nnr_dying_descendants 0\n"));
	return 0;
}

static int forgets(void)
{
	size_t depth;
	uint64_t before, after;
	/* what is forgotten changes no group, process or count */
	CHECK(done(mk_mkdir(&h, "/f", &info)) && mk_changes(&h, &before) == MK_DONE);
	CHECK(mk_forget(&h) == MK_DONE && mk_forget(&h) == MK_DONE && mk_wait(&h, before, 0, &after) == MK_TIMED_OUT);
	CHECK(done(mk_rmdir(&h, "/f", &info)) && mk_wait(&h, before, 0, &after) == MK_DONE && after == before + 1);
	CHECK(mk_forget(&h) == MK_DONE && done(mk_mkdir(&h, "/f", &info)) && done(mk_fork(&h, 1, 8, &info)));
	CHECK(done(mk_attach(&h, "/f", 8, &info)) && done(mk_write(&h, "/f", "pids.max", "1", &info)));
	CHECK(refused(mk_fork(&h, 8, 9, &info), MK_PIDS_MAX, EAGAIN) && mk_forget(&h) == MK_DONE);
	CHECK(mk_depth(&h, &depth) == MK_DONE && depth == 0 &&
		refused(mk_undo_to(&h, 1, &info), MK_NOTHING_TO_UNDO, ENODATA));
	CHECK(reads("/f", "cgroup.procs", "8\n") && reads("/f", "pids.max", "1\n") &&
		reads("/f", "pids.events", "max 1\n") && reads("/f", "pids.peak", "1\n"));
	CHECK(done(mk_kill(&h, "/f", &info)) && done(mk_undo_to(&h, 0, &info)) && info.count == 1 &&
		reads("/f", "cgroup.procs", "8\n"));
	return 0;
}

static int closed(void)
{
	uint64_t value = 9;
	uint32_t pid;
	CHECK(mk_close(&h) == MK_DONE);
	CHECK(mk_mkdir(&h, "/a", &info) == MK_CLOSED && info.error == EBADF &&
		mk_read(&h, "/", "cgroup.procs", text, sizeof text, &info) == MK_CLOSED);
	CHECK(mk_current(&h, "/a", &value, &info) == MK_CLOSED && value == 0 &&
		mk_processes(&h, "/", &pid, 1, &info) == MK_CLOSED);
	CHECK(mk_undo_to(&h, 0, &info) == MK_CLOSED && mk_forget(&h) == MK_CLOSED);
	return 0;
}

int main(void)
{
	int (*const parts[])(void) = { commands, words, small_texts, numbers, marks, forgets, closed };
	if (mk_open(&h) != MK_DONE)
		return 1;
	return run_all(parts, sizeof parts / sizeof *parts);
}
