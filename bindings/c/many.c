/* The texts of many files in one call, all of the same state. */
#include "lines.h"
#include <stdlib.h>
#include <string.h>

/* Puts one text after `used` bytes of the buffer, if there is room. Returns how many bytes it takes. */
static size_t read_one(mk0_handle *engine, const char *path, const char *file, struct buffer out, size_t used,
	mk_text *text)
{
	struct line line;
	struct answer answer;
	mk0_info told = { 0 };
	mk_info info;
	size_t at = used < out.size ? used : out.size, left = out.size - at, len = 0;
	begin_line(&line, "cat", path);
	add_word(&line, file);
	uint32_t status = ask_long(engine, &line, out.at + at, left, &answer, &told);
	if (status == MK_DONE)
		len = take_text(answer.bytes, told.len, answer.bytes);
	tell(&info, status, &told);
	*text = (mk_text){ .at = at, .len = len, .status = status, .code = info.code, .error = info.error };
	if (len < left) {
		memmove(out.at + at, answer.bytes, len);
		out.at[at + len] = 0;
	}
	free(answer.memory);
	return len + 1;
}

/* Returns how many bytes all texts take; with MK_OUT_OF_MEMORY some are missing. */
static size_t read_all(mk0_handle *engine, const char *names, size_t count, mk_text *texts, struct buffer out,
	uint32_t *status)
{
	size_t used = 0;
	for (size_t i = 0; i < count && *status == MK_DONE; i++) {
		const char *path = names, *file = path + strlen(path) + 1;
		names = file + strlen(file) + 1;
		used += read_one(engine, path, file, out, used, &texts[i]);
		if (texts[i].status == MK_OUT_OF_MEMORY)
			*status = MK_OUT_OF_MEMORY;
	}
	return used;
}

PUBLIC uint32_t mk_read_many(mk_handle *h, const char *names, size_t count, mk_text *texts, char *out, size_t size,
	mk_info *info)
{
	mk0_handle *engine;
	mk0_info told = { 0 };
	uint32_t status = enter(h, &engine);
	if (status != MK_DONE)
		return tell(info, status, &told);
	struct slot *slot = slot_of(engine);
	struct fault *faults = slot->faults;
	/* A fault occurs once, so a call that will be made again must not use it up: without faults no text is shorter. */
	slot->faults = NULL;
	struct buffer buffer = { out, size };
	size_t used = read_all(engine, names, count, texts, buffer, &status);
	slot->faults = faults;
	if (status == MK_DONE && used <= size && faults != NULL)
		used = read_all(engine, names, count, texts, buffer, &status);
	leave(engine);
	if (status == MK_DONE && used > size) {
		told.needed = used;
		status = MK_TOO_SMALL;
	} else if (status == MK_DONE) {
		told.len = used;
		told.count = count;
	}
	return tell(info, status, &told);
}
