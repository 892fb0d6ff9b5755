/* The values that are written: what is accepted is what strtoll reads too, in its range, and says itself again. */
#include "common/bounds.h"
#include "server/control.h"
#include <limits.h>
#include <number_parser.h>
#include <stdint.h>
#include <stdlib.h>
#include <string.h>

static void require(bool right)
{
	if (!right)
		abort();
}

static void check_number(const char *data, size_t size, const char *said, long long most)
{
	char text[4097], *end;
	memcpy(text, data, size);
	text[size] = 0;
	size_t from = 0;
	while ((unsigned char)text[from] == 0xa0 || strchr(" \t\n\v\f\r", text[from]))
		if (!text[from++])
			abort();
	long long n = strtoll(said, NULL, 10);
	require(n >= 0 && n <= most);
	require(strtoll(text + from, &end, 0) == n || n == 0);
	require(end != text + from);
}

int LLVMFuzzerTestOneInput(const uint8_t *data, size_t size);
int LLVMFuzzerTestOneInput(const uint8_t *data, size_t size)
{
	static const long long most
		[] = { [A_PID] = PID_MAX, [A_COUNT] = INT_MAX, [A_PIDS_LIMIT] = PIDS_LIMIT_MAX, [A_ONE] = 1, [A_SWITCH] = 1 };
	char said[SAID_MAX], again[SAID_MAX];
	unsigned long numbers[2];
	if (size == 0)
		return 0;
	enum value kind = (enum value)(A_PID + data[0] % 5);
	const char *text = (const char *)data + 1;
	size--;
	if (written_value(kind, text, size, said) == 0) {
		require(written_value(kind, said, strlen(said), again) == 0 && strcmp(said, again) == 0);
		if (strcmp(said, "max") != 0)
			check_number(text, size, said, most[kind]);
		else
			require(kind == A_COUNT || kind == A_PIDS_LIMIT);
	}
	int count = control_numbers(text, size, numbers, 2);
	require(count <= 2);
	return 0;
}
