/* The kernel's numbers, as a write to a control file has them. The mount compiles number_parser.c too, so it knows no engine. Nobody
   else may call it: the built libraries hide its names.

   The callers differ in three things, which are theirs. The library reads a pid of 0 as the caller's, and compares a constant. The
   mount reads the values of kept controllers, some of which have no sign, and may end with a line feed. */
#ifndef NUMBER_PARSER_H
#define NUMBER_PARSER_H

#include <stdbool.h>
#include <stddef.h>

/* What a file accepts in a write. NO_CHANGE: a text. WRITES: what the caller reads itself. */
enum value { NOTHING, A_PID, A_COUNT, A_PIDS_LIMIT, A_ONE, A_SWITCH, NO_CHANGE, WRITES };

enum { SAID_MAX = 24 };

/* The word of the trace language for the bytes that write(2) got: 0, or the kernel's errno, negated. Blanks at both ends, and all
   that follows a zero byte, don't count. A text of SAID_MAX bytes or more is -EOPNOTSUPP: every constant is shorter. */
int written_value(enum value kind, const char *data, size_t size, char said[SAID_MAX]);

/* kstrtoull and kstrtoll with base 0: the whole text, but for one line feed at its end. 0, -EINVAL or -ERANGE. */
int parse_unsigned(const char *text, unsigned long long *out);
int parse_signed(const char *text, long long *out);

/* The parts of these: skips the prefix that says the base; how many digits of the base there are, and their number. */
unsigned parse_base(const char **at);
size_t parse_digits(const char *text, unsigned base, unsigned long long *out, bool *wraps);

/* isspace of the kernel; and the text without blanks at both ends, which is changed. */
bool is_space(char c);
char *strip_spaces(char *text);

#endif
