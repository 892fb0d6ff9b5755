#include "common/message.h"
#include <limits.h>
#include <stdarg.h>
#include <stdio.h>

/* It may wait for who reads standard error. Nobody calls it with the engine's lock. */
void say(const char *format, ...)
{
	/* Standard error has no buffer: what one call prints is one write, so the sentences of two processes do not mix. */
	char text[2 * PATH_MAX];
	va_list words;
	va_start(words, format);
	int n = vsnprintf(text, sizeof text, format, words);
	va_end(words);
	if (n >= 0 && (size_t)n < sizeof text) {
		fprintf(stderr, "makhloeum: %s\n", text);
		return;
	}
	fprintf(stderr, "makhloeum: ");
	va_start(words, format);
	vfprintf(stderr, format, words);
	va_end(words);
	fprintf(stderr, "\n");
}
