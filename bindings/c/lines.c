#include "lines.h"
#include <inttypes.h>
#include <stdio.h>
#include <stdlib.h>
#include <string.h>

#define NO_WORD "?"

/* ---- words */

static bool is_blank(char byte)
{
	return byte == ' ' || byte == '\t' || byte == '\r' || byte == '\n';
}

static bool is_word(const char *text, size_t len, size_t most)
{
	if (len == 0 || len > most)
		return false;
	for (size_t i = 0; i < len; i++)
		if (is_blank(text[i]))
			return false;
	return true;
}

static void add_bytes(struct line *line, const char *text, size_t len)
{
	if (line->len > 0)
		line->text[line->len++] = ' ';
	memcpy(line->text + line->len, text, len);
	line->len += len;
}

static void add_up_to(struct line *line, const char *text, size_t len, size_t most)
{
	if (is_word(text, len, most))
		add_bytes(line, text, len);
	else
		add_bytes(line, NO_WORD, strlen(NO_WORD));
}

static void add_trimmed(struct line *line, const char *value, size_t len)
{
	while (len > 0 && is_blank(value[0]))
		value++, len--;
	while (len > 0 && is_blank(value[len - 1]))
		len--;
	add_up_to(line, value, len, WORD_BYTES);
}

void add(struct line *line, const char *text)
{
	add_bytes(line, text, strlen(text));
}

void command_line(struct line *line, const char *command)
{
	line->len = 0;
	add(line, command);
}

void begin_line(struct line *line, const char *command, const char *path)
{
	command_line(line, command);
	add_up_to(line, path, strlen(path), PATH_BYTES);
}

void add_word(struct line *line, const char *word)
{
	add_up_to(line, word, strlen(word), WORD_BYTES);
}

void add_value(struct line *line, const char *value)
{
	add_trimmed(line, value, strlen(value));
}

void add_pid(struct line *line, int64_t pid)
{
	char digits[24];
	snprintf(digits, sizeof digits, "%" PRId64, pid);
	add(line, digits);
}

void line_of_words(struct line *line, const char *words, const size_t *lens, size_t count)
{
	line->len = 0;
	for (size_t i = 0; i < count && i < WORDS; words += lens[i++])
		if (i == 3) /* of all commands only write has a fourth word */
			add_trimmed(line, words, lens[i]);
		else
			add_up_to(line, words, lens[i], i == 1 ? PATH_BYTES : WORD_BYTES);
}

/* ---- answers */

static bool is_between_words(uint8_t byte)
{
	return byte == ' ' || byte == '\t' || byte == '\r';
}

/* the second word of a line, if it has one and is not a comment: faults are those of paths */
static size_t path_of_line(const uint8_t *line, size_t len, const uint8_t **path)
{
	size_t at = 0, from;
	*path = line;
	while (at < len && is_between_words(line[at]))
		at++;
	if (at < len && line[at] == '#')
		return 0;
	while (at < len && !is_between_words(line[at]))
		at++;
	while (at < len && is_between_words(line[at]))
		at++;
	from = at;
	while (at < len && !is_between_words(line[at]))
		at++;
	*path = line + from;
	return at - from;
}

/* the faults at a call that names the path of the line */
static uint32_t faults_before_line(mk0_handle *engine, const uint8_t *line, size_t len, mk0_info *told)
{
	const uint8_t *path;
	if (slot_of(engine)->faults == NULL)
		return MK_DONE;
	size_t path_len = path_of_line(line, len, &path);
	return faults_before(engine, path, path_len, told);
}

static void faults_again_at_line(mk0_handle *engine, const uint8_t *line, size_t len)
{
	const uint8_t *path;
	size_t path_len = path_of_line(line, len, &path);
	faults_again(engine, path, path_len);
}

uint32_t answer_line(mk0_handle *engine, uint64_t number, const uint8_t *line, size_t len, struct buffer out,
	mk0_info *told)
{
	uint32_t status = faults_before_line(engine, line, len, told);
	if (status == MK_DONE)
		status = freezer_catch_up(slot_of(engine));
	if (status == MK_DONE)
		status = mk0_line(engine, number, line, len, (uint8_t *)out.at, out.size, told);
	if (status == MK_TOO_SMALL)
		faults_again_at_line(engine, line, len);
	return status;
}

uint32_t ask(mk0_handle *engine, const struct line *line, char *out, size_t size, mk0_info *told)
{
	return answer_line(engine, 0, (const uint8_t *)line->text, line->len, (struct buffer){ out, size }, told);
}

uint32_t ask_long(mk0_handle *engine, const struct line *line, char *buffer, size_t size, struct answer *answer,
	mk0_info *told)
{
	const uint8_t *text = (const uint8_t *)line->text;
	answer->bytes = answer->first;
	answer->memory = NULL;
	uint32_t status = faults_before_line(engine, text, line->len, told);
	if (status != MK_DONE)
		return status;
	status = mk0_line(engine, 0, text, line->len, (uint8_t *)answer->first, sizeof answer->first, told);
	if (status != MK_TOO_SMALL)
		return status;
	size_t needed = told->needed;
	*told = (mk0_info){ 0 };
	if (needed > size) {
		buffer = answer->memory = malloc(needed);
		if (buffer == NULL)
			return MK_OUT_OF_MEMORY;
	}
	answer->bytes = buffer;
	return mk0_line(engine, 0, text, line->len, (uint8_t *)buffer, needed, told);
}

void ask_again(mk0_handle *engine, const struct line *line)
{
	faults_again_at_line(engine, (const uint8_t *)line->text, line->len);
}

size_t take_text(const char *answer, size_t len, char *text)
{
	const char *end = answer + len, *from = memchr(answer, '\n', len);
	size_t taken = 0;
	if (from == NULL)
		return 0;
	for (from++; from < end;) {
		const char *feed = memchr(from, '\n', (size_t)(end - from));
		size_t size = (size_t)(feed - from) - 1;
		memmove(text + taken, from + 2, size);
		taken += size;
		from = feed + 1;
	}
	return taken;
}

uint32_t ask_text(mk0_handle *engine, const struct line *line, const struct buffer *text, mk0_info *told)
{
	struct answer answer;
	uint32_t status = ask_long(engine, line, text->at, text->size, &answer, told);
	size_t len = status == MK_DONE ? take_text(answer.bytes, told->len, answer.bytes) : 0;
	told->len = len;
	if (status == MK_DONE && len + 1 > text->size) {
		ask_again(engine, line);
		*told = (mk0_info){ .needed = len + 1 };
		status = MK_TOO_SMALL;
	}
	if (status == MK_DONE) {
		memmove(text->at, answer.bytes, len);
		text->at[len] = 0;
	}
	free(answer.memory);
	return status;
}
