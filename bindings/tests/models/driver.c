/* Plays sequences of calls from standard input and prints the result of each: calls.py says how lines and results are written.
 *
 * A sequence begins with the line `new`, which has no result, or with `new threads`: then each handle has a thread of its own, and only
 * calls on several handles, or that start or join threads, wait for all calls before them. */
#include "makhloeum.h"
#include <pthread.h>
#include <stdio.h>
#include <stdlib.h>
#include <string.h>
#include <sys/types.h>

enum { HANDLES = 4, WAITERS = 4, WORDS = 256, CALLS = 10000, TEXT = 1 << 16, WAIT_LIMIT = 60000 };

static mk_handle handles[HANDLES];

struct waiter {
	pthread_t thread;
	mk_handle handle;
	uint64_t seen, changes;
	uint32_t status;
	bool runs;
};
static struct waiter waiters[WAITERS];

struct call {
	char *line; /* its memory */
	char *words[WORDS];
	size_t count;
	char *result;
};

static void fail(const char *why)
{
	fprintf(stderr, "driver: %s\n", why);
	exit(2);
}

static bool is_plain(unsigned char byte)
{
	return (byte >= '0' && byte <= '9') || (byte >= 'A' && byte <= 'Z') || (byte >= 'a' && byte <= 'z') ||
		strchr("/._-", byte) != NULL;
}

static void put(FILE *out, const char *text, size_t len)
{
	for (size_t i = 0; i < len; i++)
		fprintf(out, text[i] != 0 && is_plain((unsigned char)text[i]) ? "%c" : "%%%02X", (unsigned char)text[i]);
}

static char *decode(char *word)
{
	char *to = word;
	if (strcmp(word, "%") == 0)
		*word = 0;
	for (char *from = word; *from != 0;) {
		if (*from == '%') {
			char digits[3] = { from[1], from[2], 0 };
			*to++ = (char)strtol(digits, NULL, 16);
			from += 3;
		} else {
			*to++ = *from++;
		}
	}
	*to = 0;
	return word;
}

static void say(FILE *out, uint32_t status, uint32_t code, int32_t error)
{
	switch (status) {
	case MK_DONE:
		fputs("ok", out);
		break;
	case MK_REFUSED:
	case MK_FAULT:
		fprintf(out, "no %u %d", code, error);
		break;
	case MK_CLOSED:
		fputs("closed", out);
		break;
	case MK_TIMED_OUT:
		fputs("timeout", out);
		break;
	case MK_FAILED:
		fprintf(out, "failed %d", error);
		break;
	default:
		fprintf(out, "status %u", status);
	}
}

/* Each buffer is small at first, so that many calls have to be made once more. */
struct room {
	char *at;
	size_t size;
};

static void make_room(struct room *room, size_t size)
{
	room->size = size;
	room->at = realloc(room->at, size);
	if (room->at == NULL)
		fail("out of memory");
}

/* ---- calls that show a text */

enum shown { AS_TEXT, AS_LIST, AS_LINES, AS_ANSWER, AS_UNDONE };

static void put_list(FILE *out, const char *text, size_t len, char end)
{
	for (size_t at = 0; at < len;) {
		const char *stop = memchr(text + at, end, len - at);
		size_t part = (size_t)(stop - text) - at;
		fputs(at == 0 ? "" : ",", out);
		put(out, text + at, part);
		at += part + 1;
	}
}

/* The lines after the first of an answer, without their marks. */
static void put_answer(FILE *out, const char *text, size_t len)
{
	const char *end = text + len, *line = memchr(text, '\n', len);
	for (line = line == NULL ? end : line + 1; line < end;) {
		const char *feed = memchr(line, '\n', (size_t)(end - line));
		put(out, line + 2, (size_t)(feed - line) - 1);
		line = feed + 1;
	}
}

static void put_undone(FILE *out, const char *text, size_t len)
{
	const char *line = (const char *)memchr(text, '\n', len) + 3;
	put(out, line, len - (size_t)(line - text) - 1);
}

static void put_reply(FILE *out, const char *answer, size_t len)
{
	const char *words = memchr(answer, ' ', len);
	words = words == NULL ? NULL : memchr(words + 1, ' ', len - (size_t)(words + 1 - answer));
	if (words != NULL) {
		fputc(' ', out);
		put(out, words + 1, len - (size_t)(words + 1 - answer) - 1);
	}
}

static uint32_t ask(mk_handle *h, char **w, struct room *room, mk_info *info, enum shown *shown)
{
	uint8_t *bytes = (uint8_t *)room->at;
	*shown = AS_TEXT;
	if (strcmp(w[0], "read") == 0)
		return mk_read(h, w[1], w[2], room->at, room->size, info);
	if (strcmp(w[0], "where") == 0)
		return mk_where(h, strtoll(w[1], NULL, 10), room->at, room->size, info);
	if (strcmp(w[0], "waitfile") == 0)
		return mk_wait_file(h, w[1], w[2], w[3], 1, room->at, room->size, info);
	*shown = AS_LIST;
	if (strcmp(w[0], "children") == 0)
		return mk_children(h, (const uint8_t *)w[1], strlen(w[1]), bytes, room->size, info);
	if (strcmp(w[0], "groups") == 0)
		return mk_subtree(h, (const uint8_t *)w[1], strlen(w[1]), bytes, room->size, info);
	*shown = AS_LINES;
	if (strcmp(w[0], "history") == 0)
		return mk_history(h, strtoul(w[1], NULL, 10), bytes, room->size, info);
	*shown = AS_ANSWER;
	if (strcmp(w[0], "line") == 0)
		return mk_line(h, 1, (const uint8_t *)w[1], strlen(w[1]), bytes, room->size, info);
	*shown = AS_UNDONE;
	return mk_undo(h, 1, bytes, room->size, info);
}

static void show(FILE *out, mk_handle *h, char **w)
{
	struct room room = { NULL, 0 };
	enum shown shown;
	mk_info info;
	uint32_t status;
	make_room(&room, 16);
	while ((status = ask(h, w, &room, &info, &shown)) == MK_TOO_SMALL)
		make_room(&room, info.needed);
	say(out, status, info.code, info.error);
	if (shown == AS_ANSWER && (status == MK_REFUSED || status == MK_FAULT))
		put_reply(out, room.at, info.len);
	if (status == MK_DONE) {
		fputc(' ', out);
		if (shown == AS_TEXT)
			put(out, room.at, info.len);
		else if (shown == AS_ANSWER)
			put_answer(out, room.at, info.len);
		else if (shown == AS_UNDONE)
			put_undone(out, room.at, info.len);
		else
			put_list(out, room.at, info.len, shown == AS_LIST ? 0 : '\n');
	}
	free(room.at);
}

static void show_processes(FILE *out, mk_handle *h, const char *path)
{
	struct room room = { NULL, 0 };
	mk_info info;
	uint32_t status;
	make_room(&room, sizeof(uint32_t));
	while ((status = mk_processes(h, path, (uint32_t *)(void *)room.at, room.size / sizeof(uint32_t), &info)) ==
		MK_TOO_SMALL)
		make_room(&room, info.needed * sizeof(uint32_t));
	const uint32_t *pids = (const uint32_t *)(void *)room.at;
	say(out, status, info.code, info.error);
	for (size_t i = 0; status == MK_DONE && i < info.count; i++)
		fprintf(out, "%s%u", i == 0 ? " " : ",", pids[i]);
	if (status == MK_DONE && info.count == 0)
		fputc(' ', out);
	free(room.at);
}

static void show_many(FILE *out, mk_handle *h, char **w, size_t count)
{
	char names[TEXT];
	mk_text texts[WORDS];
	size_t len = 0;
	for (size_t i = 0; i < count; i++) {
		memcpy(names + len, w[i], strlen(w[i]) + 1);
		len += strlen(w[i]) + 1;
	}
	struct room room = { NULL, 0 };
	mk_info info;
	uint32_t status;
	make_room(&room, 8);
	while ((status = mk_read_many(h, names, count / 2, texts, room.at, room.size, &info)) == MK_TOO_SMALL)
		make_room(&room, info.needed);
	say(out, status, info.code, info.error);
	for (size_t i = 0; status == MK_DONE && i < count / 2; i++) {
		fputs(i == 0 ? " " : ";", out);
		say(out, texts[i].status, texts[i].code, texts[i].error);
		if (texts[i].status == MK_DONE) {
			fputc(' ', out);
			put(out, room.at + texts[i].at, texts[i].len);
		}
	}
	free(room.at);
}

/* ---- numbers */

static void show_number(FILE *out, uint32_t status, const mk_info *info, uint64_t number)
{
	say(out, status, info->code, info->error);
	if (status == MK_DONE)
		fprintf(out, number == MK_NO_LIMIT ? " max" : " %llu", (unsigned long long)number);
}

/* The calls that return a number of a group: a count or a limit, or whether something is true. */
static const struct {
	const char *name;
	uint32_t (*count)(mk_handle *h, const char *path, uint64_t *value, mk_info *info);
	uint32_t (*truth)(mk_handle *h, const char *path, bool *value, mk_info *info);
} group_numbers[] = {
	/* generated by ./generate: numbers of a group in C */
	{ "current", .count = mk_current }, /* pids.current */
	{ "peak", .count = mk_peak }, /* pids.peak */
	{ "limit", .count = mk_limit }, /* pids.max */
	{ "populated", .truth = mk_populated }, /* cgroup.events */
	/* end of what is generated */
};

static bool ask_group_number(FILE *out, mk_handle *h, char **w)
{
	mk_info info = { 0 };
	uint64_t number = 0;
	bool truth = false;
	uint32_t status;
	size_t i = 0, count = sizeof group_numbers / sizeof *group_numbers;
	while (i < count && strcmp(w[0], group_numbers[i].name))
		i++;
	if (i == count)
		return false;
	if (group_numbers[i].count) {
		status = group_numbers[i].count(h, w[1], &number, &info);
	} else {
		status = group_numbers[i].truth(h, w[1], &truth, &info);
		number = truth;
	}
	show_number(out, status, &info, number);
	return true;
}

static bool ask_number(FILE *out, mk_handle *h, char **w)
{
	mk_info info = { 0 };
	uint64_t number = 0;
	size_t size = 0;
	uint32_t status;
	if (strcmp(w[0], "has") == 0) {
		status = mk_has_group(h, (const uint8_t *)w[1], strlen(w[1]), &info);
		number = status == MK_DONE;
		if (status == MK_REFUSED && info.code == MK_NO_GROUP)
			status = MK_DONE;
	} else if (strcmp(w[0], "undoto") == 0) {
		status = mk_undo_to(h, strtoul(w[1], NULL, 10), &info);
		number = info.count;
	} else if (strcmp(w[0], "depth") == 0) {
		status = mk_depth(h, &size);
		number = size;
	} else if (strcmp(w[0], "changes") == 0) {
		status = mk_changes(h, &number);
	} else if (strcmp(w[0], "wait") == 0) {
		status = mk_wait(h, strtoull(w[1], NULL, 10), 1, &number);
	} else if (strcmp(w[0], "clear") == 0) {
		status = mk_clear_faults(h, &size);
		number = size;
	} else {
		return false;
	}
	show_number(out, status, &info, number);
	return true;
}

/* ---- commands */

static bool command(FILE *out, mk_handle *h, char **w)
{
	mk_info info = { 0 };
	uint32_t status;
	if (strcmp(w[0], "mkdir") == 0)
		status = mk_mkdir(h, w[1], &info);
	else if (strcmp(w[0], "rmdir") == 0)
		status = mk_rmdir(h, w[1], &info);
	else if (strcmp(w[0], "fork") == 0)
		status = mk_fork(h, strtoll(w[1], NULL, 10), strtoll(w[2], NULL, 10), &info);
	else if (strcmp(w[0], "exit") == 0)
		status = mk_exit(h, strtoll(w[1], NULL, 10), &info);
	else if (strcmp(w[0], "attach") == 0)
		status = mk_attach(h, w[1], strtoll(w[2], NULL, 10), &info);
	else if (strcmp(w[0], "write") == 0)
		status = mk_write(h, w[1], w[2], w[3], &info);
	else if (strcmp(w[0], "kill") == 0)
		status = mk_kill(h, w[1], &info);
	else if (strcmp(w[0], "fail") == 0)
		status = mk_fail(h, w[1], strtoull(w[2], NULL, 10), (int32_t)strtol(w[3], NULL, 10), &info);
	else if (strcmp(w[0], "vanish") == 0)
		status = mk_vanish(h, w[1], strtoull(w[2], NULL, 10), &info);
	else if (strcmp(w[0], "forget") == 0)
		status = mk_forget(h);
	else if (strcmp(w[0], "open") == 0)
		status = mk_open(h);
	else if (strcmp(w[0], "close") == 0)
		status = mk_close(h);
	else if (strcmp(w[0], "copy") == 0)
		status = mk_copy(h, &handles[strtoul(w[1], NULL, 10)]);
	else
		return false;
	say(out, status, info.code, info.error);
	return true;
}

/* ---- threads */

static void *wait_for_a_change(void *of)
{
	struct waiter *it = of;
	it->status = mk_wait(&it->handle, it->seen, WAIT_LIMIT, &it->changes);
	return NULL;
}

static void begin_waiter(FILE *out, const mk_handle *h, struct waiter *it)
{
	mk_handle handle = *h;
	uint64_t seen;
	uint32_t status = mk_changes(&handle, &seen);
	if (status == MK_DONE && it->runs) {
		fputs("taken", out);
		return;
	}
	if (status == MK_DONE) {
		*it = (struct waiter){ .handle = handle, .seen = seen, .runs = true };
		if (pthread_create(&it->thread, NULL, wait_for_a_change, it) != 0)
			fail("no thread");
	}
	say(out, status, 0, 0);
}

static void join_waiter(FILE *out, struct waiter *it)
{
	mk_info none = { 0 };
	uint64_t changes;
	if (!it->runs) {
		fputs("none", out);
		return;
	}
	if (mk_changes(&it->handle, &changes) == MK_DONE && changes == it->seen) {
		fputs("waits", out);
		return;
	}
	pthread_join(it->thread, NULL);
	it->runs = false;
	show_number(out, it->status, &none, it->changes);
}

static void make(FILE *out, mk_handle *h, char **w, size_t count);

struct thread {
	pthread_t thread;
	pthread_barrier_t *begin;
	mk_handle *handle;
	char **words;
	size_t count;
	char *result;
};

/* The calls of one thread, with | between them. */
static void *make_each(void *of)
{
	struct thread *it = of;
	size_t len;
	FILE *out = open_memstream(&it->result, &len);
	pthread_barrier_wait(it->begin);
	for (size_t from = 0, to; from < it->count; from = to + 1) {
		for (to = from; to < it->count && strcmp(it->words[to], "|") != 0;)
			to++;
		fputs(from == 0 ? "" : " | ", out);
		make(out, it->handle, it->words + from, to - from);
	}
	fclose(out);
	return NULL;
}

static void together(FILE *out, mk_handle *h, char **w, size_t count)
{
	struct thread threads[8];
	pthread_barrier_t begin;
	size_t found = 0, depth;
	char place[24], *history[] = { "history", place };
	for (size_t from = 0, to; from < count; from = to + 1, found++) {
		for (to = from; to < count && strcmp(w[to], "||") != 0;)
			to++;
		threads[found] = (struct thread){ .begin = &begin, .handle = h, .words = w + from, .count = to - from };
	}
	mk_depth(h, &depth);
	pthread_barrier_init(&begin, NULL, (unsigned)found);
	for (size_t i = 0; i < found; i++)
		if (pthread_create(&threads[i].thread, NULL, make_each, &threads[i]) != 0)
			fail("no thread");
	for (size_t i = 0; i < found; i++) {
		pthread_join(threads[i].thread, NULL);
		fprintf(out, "%s%s", i == 0 ? "" : " || ", threads[i].result);
		free(threads[i].result);
	}
	pthread_barrier_destroy(&begin);
	snprintf(place, sizeof place, "%zu", depth);
	char *told;
	size_t len;
	FILE *shown = open_memstream(&told, &len);
	show(shown, h, history);
	fclose(shown);
	fprintf(out, " ## %s", told + strlen("ok "));
	free(told);
}

/* ---- lines */

static void make(FILE *out, mk_handle *h, char **w, size_t count)
{
	if (command(out, h, w) || ask_group_number(out, h, w) || ask_number(out, h, w))
		return;
	if (strcmp(w[0], "processes") == 0)
		show_processes(out, h, w[1]);
	else if (strcmp(w[0], "many") == 0)
		show_many(out, h, w + 1, count - 1);
	else if (strcmp(w[0], "await") == 0)
		begin_waiter(out, h, &waiters[strtoul(w[1], NULL, 10)]);
	else if (strcmp(w[0], "join") == 0)
		join_waiter(out, &waiters[strtoul(w[1], NULL, 10)]);
	else if (strcmp(w[0], "together") == 0)
		together(out, h, w + 1, count - 1);
	else
		show(out, h, w);
}

static size_t handle_of(const struct call *call)
{
	return strtoul(call->words[0], NULL, 10);
}

static void run(struct call *call)
{
	size_t len;
	FILE *out = open_memstream(&call->result, &len);
	make(out, &handles[handle_of(call)], call->words + 1, call->count - 1);
	fclose(out);
}

/* Calls that concern more than one handle, or other threads. */
static bool is_of_one(const struct call *call)
{
	static const char *const others[] = { "open", "close", "copy", "await", "join", "together" };
	for (size_t i = 0; i < sizeof others / sizeof *others; i++)
		if (strcmp(call->words[1], others[i]) == 0)
			return false;
	return true;
}

struct part {
	pthread_t thread;
	struct call *calls;
	size_t count, handle;
};

static void *run_those_of_a_handle(void *of)
{
	const struct part *part = of;
	for (size_t i = 0; i < part->count; i++)
		if (handle_of(&part->calls[i]) == part->handle)
			run(&part->calls[i]);
	return NULL;
}

static void run_in_threads(struct call *calls, size_t count)
{
	struct part parts[HANDLES];
	bool is_used[HANDLES] = { false };
	size_t found = 0;
	for (size_t i = 0; i < count; i++)
		is_used[handle_of(&calls[i])] = true;
	for (size_t i = 0; i < HANDLES; i++)
		if (is_used[i])
			parts[found++] = (struct part){ .calls = calls, .count = count, .handle = i };
	for (size_t i = 1; i < found; i++)
		if (pthread_create(&parts[i].thread, NULL, run_those_of_a_handle, &parts[i]) != 0)
			fail("no thread");
	run_those_of_a_handle(&parts[0]);
	for (size_t i = 1; i < found; i++)
		pthread_join(parts[i].thread, NULL);
}

static void begin(void)
{
	for (size_t i = 0; i < HANDLES; i++)
		mk_close(&handles[i]);
	for (size_t i = 0; i < WAITERS; i++)
		if (waiters[i].runs) {
			pthread_join(waiters[i].thread, NULL);
			waiters[i].runs = false;
		}
	if (mk_open(&handles[0]) != MK_DONE)
		fail("no handle");
}

static void play(struct call *calls, size_t count, bool has_threads)
{
	if (count > 0)
		begin();
	for (size_t from = 0, to; from < count; from = to) {
		for (to = from; has_threads && to < count && is_of_one(&calls[to]);)
			to++;
		if (to > from)
			run_in_threads(calls + from, to - from);
		else
			run(&calls[to++]);
	}
	for (size_t i = 0; i < count; i++) {
		puts(calls[i].result);
		free(calls[i].result);
		free(calls[i].line);
	}
	fflush(stdout);
}

static void read_call(struct call *call, const char *line)
{
	char *rest;
	call->line = strdup(line);
	if (call->line == NULL)
		fail("out of memory");
	call->count = 0;
	for (char *it = strtok_r(call->line, " ", &rest); it != NULL && call->count < WORDS;
		 it = strtok_r(NULL, " ", &rest))
		call->words[call->count++] = decode(it);
}

int main(void)
{
	static struct call calls[CALLS];
	char *line = NULL;
	size_t room = 0, count = 0;
	bool has_threads = false;
	for (ssize_t read; (read = getline(&line, &room, stdin)) > 0;) {
		line[read - 1] = 0;
		if (strncmp(line, "new", 3) == 0) {
			play(calls, count, has_threads);
			count = 0;
			has_threads = strcmp(line, "new threads") == 0;
		} else if (count < CALLS) {
			read_call(&calls[count++], line);
		} else {
			fail("too many calls");
		}
	}
	play(calls, count, has_threads);
	free(line);
	for (size_t i = 0; i < HANDLES; i++)
		mk_close(&handles[i]);
	for (size_t i = 0; i < WAITERS; i++)
		if (waiters[i].runs)
			pthread_join(waiters[i].thread, NULL);
	return 0;
}
