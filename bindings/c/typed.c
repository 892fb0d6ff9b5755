/* A call for each command, and for each number of a group, over the lines of the trace language. */
#include "lines.h"
#include <stdlib.h>
#include <string.h>

/* a command whose answer is one line */
static uint32_t run(mk_handle *h, const struct line *line, mk_info *info)
{
	mk0_handle *engine;
	mk0_info told = { 0 };
	char out[ANSWER_BYTES];
	uint32_t status = enter(h, &engine);
	if (status == MK_DONE) {
		status = ask(engine, line, out, sizeof out, &told);
		leave(engine);
	}
	told.len = 0;
	return tell(info, status, &told);
}

/* ---- commands */

PUBLIC uint32_t mk_mkdir(mk_handle *h, const char *path, mk_info *info)
{
	struct line line;
	begin_line(&line, "mkdir", path);
	return run(h, &line, info);
}

PUBLIC uint32_t mk_rmdir(mk_handle *h, const char *path, mk_info *info)
{
	struct line line;
	begin_line(&line, "rmdir", path);
	return run(h, &line, info);
}

PUBLIC uint32_t mk_fork(mk_handle *h, int64_t parent, int64_t child, mk_info *info)
{
	struct line line;
	command_line(&line, "fork");
	add_pid(&line, parent);
	add_pid(&line, child);
	return run(h, &line, info);
}

PUBLIC uint32_t mk_exit(mk_handle *h, int64_t pid, mk_info *info)
{
	struct line line;
	command_line(&line, "exit");
	add_pid(&line, pid);
	return run(h, &line, info);
}

PUBLIC uint32_t mk_attach(mk_handle *h, const char *path, int64_t pid, mk_info *info)
{
	struct line line;
	begin_line(&line, "write", path);
	add(&line, "cgroup.procs");
	add_pid(&line, pid);
	return run(h, &line, info);
}

PUBLIC uint32_t mk_write(mk_handle *h, const char *path, const char *file, const char *value, mk_info *info)
{
	struct line line;
	begin_line(&line, "write", path);
	add_word(&line, file);
	add_value(&line, value);
	return run(h, &line, info);
}

PUBLIC uint32_t mk_kill(mk_handle *h, const char *path, mk_info *info)
{
	struct line line;
	begin_line(&line, "write", path);
	add(&line, "cgroup.kill");
	add(&line, "1");
	return run(h, &line, info);
}

PUBLIC uint32_t mk_words(mk_handle *h, uint64_t number, const char *words, const size_t *lens, size_t count,
	uint8_t *out, size_t out_size, mk_info *info)
{
	struct line line;
	line_of_words(&line, words, lens, count);
	return mk_line(h, number, (const uint8_t *)line.text, line.len, out, out_size, info);
}

/* ---- texts */

static uint32_t read_text(mk_handle *h, const struct line *line, char *text, size_t size, mk_info *info)
{
	mk0_handle *engine;
	mk0_info told = { 0 };
	uint32_t status = enter(h, &engine);
	if (status == MK_DONE) {
		status = ask_text(engine, line, &(struct buffer){ text, size }, &told);
		leave(engine);
	}
	return tell(info, status, &told);
}

PUBLIC uint32_t mk_read(mk_handle *h, const char *path, const char *file, char *text, size_t size, mk_info *info)
{
	struct line line;
	begin_line(&line, "cat", path);
	add_word(&line, file);
	return read_text(h, &line, text, size, info);
}

PUBLIC uint32_t mk_where(mk_handle *h, int64_t pid, char *text, size_t size, mk_info *info)
{
	struct line line;
	command_line(&line, "where");
	add_pid(&line, pid);
	return read_text(h, &line, text, size, info);
}

/* ---- numbers */

typedef uint32_t number_call(mk0_handle *h, const uint8_t *path, size_t path_len, uint64_t *value, mk0_info *info);

static uint32_t read_number(mk_handle *h, const char *path, number_call *call, uint64_t *value, mk_info *info)
{
	mk0_handle *engine;
	mk0_info told = { 0 };
	uint64_t found = 0;
	uint32_t status = enter(h, &engine);
	if (status == MK_DONE) {
		status = faults_before(engine, (const uint8_t *)path, strlen(path), &told);
		if (status == MK_DONE)
			status = call(engine, (const uint8_t *)path, strlen(path), &found, &told);
		leave(engine);
	}
	*value = found;
	return tell(info, status, &told);
}

PUBLIC uint32_t mk_current(mk_handle *h, const char *path, uint64_t *value, mk_info *info)
{
	return read_number(h, path, mk0_current, value, info);
}

PUBLIC uint32_t mk_peak(mk_handle *h, const char *path, uint64_t *value, mk_info *info)
{
	return read_number(h, path, mk0_peak, value, info);
}

PUBLIC uint32_t mk_populated(mk_handle *h, const char *path, bool *populated, mk_info *info)
{
	uint64_t value;
	uint32_t status = read_number(h, path, mk0_populated, &value, info);
	*populated = value != 0;
	return status;
}

PUBLIC uint32_t mk_limit(mk_handle *h, const char *path, uint64_t *value, mk_info *info)
{
	return read_number(h, path, mk0_limit, value, info);
}

/* the pids after the first line of an answer, as many as there is room for; returns how many there are */
static size_t read_pids(const char *answer, size_t len, uint32_t *pids, size_t room)
{
	const char *end = answer + len, *feed = answer;
	size_t count = 0;
	while ((feed = memchr(feed, '\n', (size_t)(end - feed))) != NULL && ++feed < end) {
		if (count < room)
			pids[count] = (uint32_t)strtoul(feed + 2, NULL, 10);
		count++;
	}
	return count;
}

PUBLIC uint32_t mk_processes(mk_handle *h, const char *path, uint32_t *pids, size_t room, mk_info *info)
{
	mk0_handle *engine;
	mk0_info told = { 0 };
	struct answer answer;
	struct line line;
	begin_line(&line, "cat", path);
	add(&line, "cgroup.procs");
	uint32_t status = enter(h, &engine);
	if (status != MK_DONE)
		return tell(info, status, &told);
	status = ask_long(engine, &line, NULL, 0, &answer, &told);
	size_t count = status == MK_DONE ? read_pids(answer.bytes, told.len, pids, room) : 0;
	told.len = 0;
	if (count > room) {
		ask_again(engine, &line);
		told.needed = count;
		status = MK_TOO_SMALL;
	} else {
		told.count = count;
	}
	leave(engine);
	free(answer.memory);
	return tell(info, status, &told);
}

/* ---- marks */

PUBLIC uint32_t mk_undo_to(mk_handle *h, size_t mark, mk_info *info)
{
	mk0_handle *engine;
	mk0_info told = { 0 };
	char out[ANSWER_BYTES];
	size_t depth = 0, undone = 0;
	uint32_t status = enter(h, &engine);
	if (status != MK_DONE)
		return tell(info, status, &told);
	mk0_depth(engine, &depth);
	if (depth < mark) {
		told.code = MK_NOTHING_TO_UNDO;
		status = MK_REFUSED;
	}
	for (; status == MK_DONE && depth > mark; depth--) {
		status = freezer_catch_up(slot_of(engine));
		if (status == MK_DONE)
			status = mk0_undo(engine, 0, (uint8_t *)out, sizeof out, &told);
		undone += status == MK_DONE;
		freezer_look(slot_of(engine));
	}
	leave(engine);
	told.len = 0;
	told.count = undone;
	return tell(info, status, &told);
}
