#include "values/number_ranges.h"
#include <errno.h>
#include <number_parser.h>
#include <stdio.h>
#include <string.h>

/* False beyond the last number. */
static bool has(const struct number_ranges *l, unsigned n)
{
	return n < NUMBER_RANGES_MAX && l->bits[n / 8] & (1U << n % 8);
}

/* ---------------------------------------------------------------- reading */

/* FIRST-LAST:USED/OF, of which all but the first may be missing: of each OF numbers the first
   USED. The kernel's own name for it. */
struct region {
	unsigned first, last, used, of;
};

/* A number; N is the last possible one. NULL: not a number. `fault` becomes -EINVAL or -EOVERFLOW. */
static const char *take_number(const char *at, unsigned bits, unsigned *out, int *fault)
{
	if (*at == 'N') {
		*out = bits - 1;
		return at + 1;
	}
	unsigned n = 0;
	const char *from = at;
	for (; *at >= '0' && *at <= '9'; at++)
		if (__builtin_mul_overflow(n, 10U, &n) || __builtin_add_overflow(n, (unsigned)(*at - '0'), &n))
			*fault = -EOVERFLOW;
	if (at == from)
		*fault = -EINVAL;
	*out = n;
	return *fault ? NULL : at;
}

/* A region ends at a comma, a blank or the end of the text. */
static bool is_end(char c)
{
	return c == 0 || c == ',' || is_space(c);
}

/* As the kernel reads one, with the same errnos. */
static const char *take_region(const char *at, unsigned bits, struct region *r, int *fault)
{
	bool is_all = strncmp(at, "all", 3) == 0;
	if (is_all) {
		r->first = 0;
		r->last = bits - 1;
		at += 3;
	} else {
		at = take_number(at, bits, &r->first, fault);
		r->last = r->first;
	}
	if (at && !is_all && !is_end(*at)) {
		if (*at != '-')
			*fault = -EINVAL;
		at = *fault ? NULL : take_number(at + 1, bits, &r->last, fault);
	}
	r->used = r->of = r->last + 1; /* all. As in the kernel it is 0, and refused, for the last number of 32 bits. */
	if (at && *at == ':') {
		at = take_number(at + 1, bits, &r->used, fault);
		if (at && *at != '/')
			*fault = -EINVAL;
		at = at && !*fault ? take_number(at + 1, bits, &r->of, fault) : NULL;
	}
	if (at && !is_end(*at))
		*fault = -EINVAL;
	return *fault ? NULL : at;
}

/* The order of these two checks decides the errno, as in the kernel. */
static int add_region(const struct region *r, unsigned bits, struct number_ranges *out)
{
	if (r->first > r->last || r->of == 0 || r->used > r->of)
		return -EINVAL;
	if (r->last >= bits)
		return -ERANGE;
	for (unsigned n = r->first; n <= r->last; n++)
		if ((n - r->first) % r->of < r->used)
			out->bits[n / 8] |= (unsigned char)(1U << n % 8);
	return 0;
}

/* An empty text is the empty list. */
int number_ranges_read(const char *text, unsigned bits, struct number_ranges *out)
{
	int fault = 0;
	memset(out, 0, sizeof *out);
	/* Regions may have several commas and blanks between them, or none at all. */
	for (;;) {
		struct region r;
		while (*text == ',' || is_space(*text))
			text++;
		if (*text == 0)
			return 0;
		text = take_region(text, bits, &r, &fault);
		if (fault == 0)
			fault = add_region(&r, bits, out);
		if (fault)
			return fault;
	}
}

/* ---------------------------------------------------------------- the rest */

/* Numbers that follow each other are written as one range. */
bool number_ranges_write(const struct number_ranges *l, char *out, size_t size)
{
	size_t at = 0;
	for (unsigned n = 0; n < NUMBER_RANGES_MAX; n++) {
		if (!has(l, n))
			continue;
		unsigned first = n;
		while (has(l, n + 1))
			n++;
		int added = n == first ? snprintf(out + at, size - at, "%s%u", at ? "," : "", n)
							   : snprintf(out + at, size - at, "%s%u-%u", at ? "," : "", first, n);
		at += (size_t)added;
		/* The line feed and the zero byte need room too. */
		if (at + 1 >= size)
			return false;
	}
	out[at] = '\n';
	out[at + 1] = 0;
	return true;
}

bool number_ranges_is_empty(const struct number_ranges *l)
{
	static const struct number_ranges none;
	return memcmp(l, &none, sizeof none) == 0;
}

/* Whether all numbers of the first are in the second. */
bool number_ranges_is_within(const struct number_ranges *l, const struct number_ranges *all)
{
	for (size_t i = 0; i < sizeof l->bits; i++)
		if (l->bits[i] & ~all->bits[i])
			return false;
	return true;
}

/* The intersection takes the place of the first. */
void number_ranges_keep_common(struct number_ranges *l, const struct number_ranges *other)
{
	for (size_t i = 0; i < sizeof l->bits; i++)
		l->bits[i] &= other->bits[i];
}

/* 0 for an empty list too. Those of the machine have a number. */
unsigned number_ranges_last(const struct number_ranges *l)
{
	unsigned n = NUMBER_RANGES_MAX - 1;
	while (n && !has(l, n))
		n--;
	return n;
}
