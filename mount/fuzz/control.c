/* Writes to the control directory, one after another: a write that fails changes nothing, an undo of N removes N commands,
   forgetting removes all, and any other write adds one. */
#include "server/control.h"
#include "engine/engine.h"
#include "server/operations.h"
#include <errno.h>
#include <stdint.h>
#include <stdlib.h>
#include <string.h>

static struct trace_file none = { .fd = -1 };

static size_t lines(void)
{
	size_t size, count = 0;
	const char *text;
	if (engine_history(0, &text, &size))
		abort();
	for (size_t i = 0; i < size; i++)
		count += text[i] == '\n';
	return count;
}

static void one(int file, const char *data, size_t size)
{
	const char *name = control_name(file);
	bool undoes = strcmp(name, "undo") == 0, forgets = strcmp(name, "forget") == 0;
	size_t before = engine_depth();
	int result = control_write(file, data, size);
	size_t after = engine_depth();
	if (result > 0 || lines() != after)
		abort();
	if (result ? after != before : forgets ? after != 0 : undoes ? after > before : after != before + 1)
		abort();
}

int LLVMFuzzerTestOneInput(const uint8_t *data, size_t size);
int LLVMFuzzerTestOneInput(const uint8_t *data, size_t size)
{
	static bool begun;
	look.history = true;
	if (!begun && !engine_start(&none, &none, true))
		abort();
	begun = true;
	engine_lock();
	while (size >= 2) {
		int file = data[0] % CONTROL_FILES;
		size_t n = data[1] < size - 2 ? data[1] : size - 2;
		one(file, (const char *)data + 2, n);
		data += 2 + n;
		size -= 2 + n;
	}
	while (engine_depth())
		if (control_write(0, "1", 1))
			abort();
	engine_unlock();
	return 0;
}
