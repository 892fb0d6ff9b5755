/* Numbers and words as the kernel's own parsers read them: memparse and sscanf, besides those of number_parser.h. */
#ifndef SCAN_H
#define SCAN_H

#include <number_parser.h>

/* sscanf's %s: a word of less than `size` bytes. False if there is none. */
bool scan_word(const char **at, char *out, size_t size);
/* sscanf's %llu: no sign, and it wraps around. */
bool scan_decimal(const char **at, unsigned long long *out);
/* memparse: a number in any base, and a letter for its scale. `end` is after them. No sign, and it wraps around. */
unsigned long long scan_memory(const char *text, const char **end);

#endif
