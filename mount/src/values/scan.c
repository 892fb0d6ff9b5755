#include "values/scan.h"
#include <string.h>

static void skip_blanks(const char **at)
{
	while (is_space(**at))
		++*at;
}

/* A longer word is cut, and its rest is the next word: as with a width in sscanf. */
bool scan_word(const char **at, char *out, size_t size)
{
	size_t n = 0;
	skip_blanks(at);
	while (**at && !is_space(**at) && n + 1 < size)
		out[n++] = *(*at)++;
	out[n] = 0;
	return n > 0;
}

/* It wraps around, as the kernel's parser does: so a number beyond 64 bits is another number there
   too. */
bool scan_decimal(const char **at, unsigned long long *out)
{
	bool wraps = false;
	skip_blanks(at);
	size_t n = parse_digits(*at, 10, out, &wraps);
	*at += n;
	return n > 0;
}

/* Without digits it is 0. */
unsigned long long scan_memory(const char *text, const char **end)
{
	static const char scales[] = "kmgtpe";
	unsigned long long n;
	bool wraps = false;
	unsigned base = parse_base(&text);
	text += parse_digits(text, base, &n, &wraps);
	/* 0x20 makes a letter a small one, and the end of the text a blank. */
	const char *scale = strchr(scales, *text | 0x20);
	if (scale) {
		n <<= 10 * (unsigned)(scale - scales + 1);
		text++;
	}
	*end = text;
	return n;
}
