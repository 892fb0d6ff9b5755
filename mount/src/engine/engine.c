#include "engine/engine.h"
#include "common/bounds.h"
#include "common/message.h"
#include "engine/engine_queries.h"
#include "engine/undo_steps.h"
#include <errno.h>
#include <makhloeum.h>
#include <pthread.h>
#include <stdarg.h>
#include <stdint.h>
#include <stdio.h>
#include <stdlib.h>
#include <string.h>
#include <time.h>
#include <unistd.h>

/* TIME_MAX: bytes of the comment before a line. FIRST_ANSWER: bytes, more than most answers have.
   FORGET_AT: records, after which a mount without a history drops them: their memory stays
   bounded, and a drop costs little for each command. */
enum { TIME_MAX = 48, FIRST_ANSWER = 16384, FORGET_AT = 1024 };

/* It is no recursive lock: a thread that has it must not take it again. */
static pthread_mutex_t lock = PTHREAD_MUTEX_INITIALIZER;
static mk_handle engine;
static struct trace_file *trace, *answers;
/* what follows is used with the lock: so is each text that a call returns, which lasts until the
   next call. */
static bool has_history;
/* Of each thread: for WANTS_LOCK alone. */
static _Thread_local bool holds_lock;
static uint64_t number = 1; /* of the next line that is kept */
static size_t depth; /* how many commands can be undone: asked once after each line that may change it */
static char line[LINE_BYTES];
static size_t line_size;
static struct timespec started;
/* where several lines that are one operation began. Only between engine_begin and engine_finish,
   which one thread calls without giving the lock back. */
static struct {
	bool are_open;
	size_t depth;
	uint64_t number;
	off_t trace, answers;
} several;

static struct buffer answer, text;

bool engine_start(struct trace_file *trace_to, struct trace_file *answers_to, bool history)
{
	trace = trace_to;
	answers = answers_to;
	has_history = history;
	clock_gettime(CLOCK_MONOTONIC, &started);
	return buffer_make_room(&answer, FIRST_ANSWER) && buffer_make_room(&text, FIRST_ANSWER) && engine_queries_start() &&
		mk_open(&engine) == MK_DONE;
}

/* Of the process that calls it: the supervisor frees its copy, and the server has its own. */
void engine_end(void)
{
	mk_close(&engine);
	free(answer.at);
	free(text.at);
	engine_queries_end();
	trace_file_close(trace);
	trace_file_close(answers);
}

/* For engine_queries.c alone. */
mk_handle *engine_handle(void)
{
	WANTS_LOCK();
	return &engine;
}

/* Set before the mount's threads begin, and not changed afterwards: so it is read without a lock. */
static void (*calls_first)(void);

/* NULL at first: nobody is called. */
void engine_lock_calls(void (*first)(void))
{
	calls_first = first;
}

void engine_lock(void)
{
	pthread_mutex_lock(&lock);
	/* `calls_first` answers the supervisor. So whoever gets the lock knows all that the supervisor
	   has said before, and a look at the engine is never older than that. */
	holds_lock = true;
	if (calls_first)
		calls_first();
}

/* First the mark and then the lock: afterwards another thread may have it. */
void engine_unlock(void)
{
	holds_lock = false;
	pthread_mutex_unlock(&lock);
}

#ifdef CHECK_LOCK
void engine_check_lock(const char *function)
{
	if (holds_lock)
		return;
	say("%s is called without the engine's lock", function);
	abort();
}
#endif

/* The answer without its first line, and without the mark before each other line. It always has room: see `ask`. */
static void take_text(void)
{
	const char *from = memchr(answer.at, '\n', answer.size), *end = answer.at + answer.size;
	text.size = 0;
	if (!from)
		return;
	for (from++; from < end;) {
		const char *feed = memchr(from, '\n', (size_t)(end - from));
		size_t n = (size_t)(feed - from) - 1;
		memcpy(text.at + text.size, from + 2, n);
		text.size += n;
		from = feed + 1;
	}
}

/* The text gets its room before the answer: once a line is answered, nothing can fail for lack of memory. */
static uint32_t ask(uint64_t as, uint32_t *code)
{
	mk_info info;
	for (;;) {
		/* `as` is the number of the line, which the answer names; 0 for a line that is not kept. */
		uint32_t status = mk_line(&engine, as, (const uint8_t *)line, line_size, (uint8_t *)answer.at, answer.room,
			&info);
		/* An answer that does not fit changes nothing in the engine, so the line is asked again. */
		if (status == MK_TOO_SMALL && buffer_make_room(&text, 2 * answer.room) &&
			buffer_make_room(&answer, 2 * answer.room))
			continue;
		answer.size = info.len;
		*code = info.code;
		return status;
	}
}

/* MK_REFUSED: the hierarchy forbids it. MK_FAULT: the line or its path is wrong. Both carry a code
   with an errno. All else is lack of memory. */
static int error_of(uint32_t status, uint32_t code)
{
	switch (status) {
	case MK_DONE:
		take_text();
		return 0;
	case MK_REFUSED:
	case MK_FAULT:
		text.size = 0;
		return -mk_errno(code);
	default:
		return -ENOMEM;
	}
}

/* What an answered line did to the engine's records. */
enum effect { NOTHING, RECORDED, UNDONE };

/* Each recorded command adds one to the depth, and each undo takes one away. */
static enum effect effect_since(size_t before)
{
	mk_depth(&engine, &depth); /* it cannot fail: there is an engine */
	return depth > before ? RECORDED : depth < before ? UNDONE : NOTHING;
}

/* Brings back the state before the line that was answered: what it recorded is undone, and what it undid is done again. */
static bool step_back(enum effect effect)
{
	uint32_t code;
	size_t before = depth;
	/* A refused fork that was counted is a record too, and is undone like a command. */
	if (effect == NOTHING)
		return true;
	if (effect == UNDONE) {
		take_text();
		/* The text of an undo is the command that it undid, as a line. */
		line_size = text.size - 1;
		memcpy(line, text.at, line_size);
	} else {
		line_size = 4;
		memcpy(line, "undo", line_size);
	}
	ask(0, &code);
	return effect_since(before) != NOTHING;
}

/* A warning, once, if the trace is longer than cgreplay reads, and a comment at that place in the trace. */
static void tell_long(void)
{
	static const char mark[] = "# This trace is longer than 16,777,216 bytes: use cgshell, not cgreplay.\n";
	/* It may fail: then the trace lacks a comment and no line. */
	if (trace->size > TRACE_BYTES && trace_file_tell_long(trace))
		trace_file_add(trace, mark, sizeof mark - 1);
}

/* Keeps `line`, which ends in a line feed, behind a comment that says when, since the engine's start. 0 or -errno */
static int keep_line(size_t size)
{
	static char both[TIME_MAX + LINE_BYTES];
	struct timespec now;
	clock_gettime(CLOCK_MONOTONIC, &now);
	long long passed = (now.tv_sec - started.tv_sec) * 1000000LL + (now.tv_nsec - started.tv_nsec) / 1000;
	int n = snprintf(both, TIME_MAX, "# at %lld.%06lld\n", passed / 1000000, passed % 1000000);
	memcpy(both + n, line, size);
	return trace_file_add(trace, both, (size_t)n + size);
}

/* The state stays; only the records go. It cannot fail: there is an engine, and it needs no memory. */
static void forget(void)
{
	mk_forget(&engine);
	depth = 0;
}

/* `line` has the text; 0 or -errno. The line is kept before the engine is asked, and its answer after that: a device without room refuses
   an operation, and never leaves the trace behind the state. If this process is killed between, the trace has one line more than
   there are answers. */
static int ask_and_keep(void)
{
	uint32_t code;
	line[line_size] = '\n';
	/* Not within an operation of several lines: its first lines may have to be undone. */
	if (!has_history && !several.are_open && depth >= FORGET_AT)
		forget();
	size_t before = depth;
	off_t kept = trace->size; /* where the trace is cut if the line fails */
	int fault = keep_line(line_size + 1);
	if (fault)
		return fault;
	uint32_t status = ask(number, &code);
	enum effect effect = effect_since(before);
	if (status != MK_DONE && status != MK_REFUSED && status != MK_FAULT)
		fault = -ENOMEM; /* nothing has changed: so the line was never there */
	else if ((fault = trace_file_add(answers, answer.at, answer.size)) && !step_back(effect))
		trace->broken = answers->broken =
			EIO; /* out of memory: the state is ahead of the answers, and goes no further */
	if (fault) {
		trace_file_take_back(trace, kept);
		return fault;
	}
	number++;
	tell_long();
	return error_of(status, code);
}

/* With a history the step needs room in its list: without that nothing is begun. */
int engine_begin(void)
{
	WANTS_LOCK();
	int fault = has_history ? undo_steps_make_room() : 0;
	several.are_open = true;
	/* What engine_finish goes back to after a fault. */
	several.depth = depth;
	several.number = number;
	several.trace = trace->size;
	several.answers = answers->size;
	return fault;
}

/* If there is no memory to undo them, they stay, and the state goes no further than what was kept of it. */
int engine_finish(int fault)
{
	bool are_undone = true;
	WANTS_LOCK();
	several.are_open = false;
	if (fault == 0 && has_history)
		undo_steps_add(several.depth, depth);
	if (fault == 0 || depth == several.depth)
		return fault;
	/* The newest first, as they were recorded in order. */
	while (are_undone && depth > several.depth)
		are_undone = step_back(RECORDED);
	if (!are_undone) {
		trace->broken = answers->broken = EIO;
		return fault;
	}
	/* The lines and their answers go together, so that a replay of the one gives the other. */
	trace_file_take_back(trace, several.trace);
	trace_file_take_back(answers, several.answers);
	number = several.number;
	return fault;
}

/* Each has room, also for its line feed: LINE_BYTES is about twice PATH_BYTES, and a line has at most one path. */
__attribute__((format(printf, 1, 0))) static void set_line(const char *format, va_list words)
{
	line_size = (size_t)vsnprintf(line, sizeof line, format, words);
}

int engine_line(const char *format, ...)
{
	va_list words;
	WANTS_LOCK();
	va_start(words, format);
	set_line(format, words);
	va_end(words);
	return ask_and_keep();
}

/* The number 0 says that the line is not part of the trace. */
int engine_look(const char *format, ...)
{
	uint32_t code;
	va_list words;
	WANTS_LOCK();
	va_start(words, format);
	set_line(format, words);
	va_end(words);
	uint32_t status = ask(0, &code);
	return error_of(status, code);
}

const char *engine_text(size_t *size)
{
	WANTS_LOCK();
	*size = text.size;
	return text.at;
}

/* It is kept up to date after each line, so no call of the engine is needed. */
size_t engine_depth(void)
{
	WANTS_LOCK();
	return depth;
}

void engine_forget(void)
{
	WANTS_LOCK();
	forget();
	undo_steps_cut(0);
}
