/* memory.*: bytes are stored as whole pages. */
#include "values/scan.h"
#include "values/values.h"
#include <errno.h>
#include <limits.h>
#include <stdio.h>
#include <string.h>
#include <unistd.h>

/* `max`, or a number of bytes. As in the kernel, an empty value is 0 bytes, and a number beyond the greatest counter is no
   limit. */
int memory_take_limit(const char *group, const struct file *file, const char *said, char out[TEXT_ROOM])
{
	char text[TEXT_ROOM + 1];
	const char *end;
	unsigned long long page = (unsigned long long)sysconf(_SC_PAGESIZE);
	(void)group, (void)file;
	snprintf(text, sizeof text, "%s", said);
	const char *from = strip_spaces(text);
	/* Rounded down, as in the kernel. */
	unsigned long long pages = scan_memory(from, &end) / page;
	if (strcmp(from, "max") == 0)
		pages = LONG_MAX / page;
	else if (*end)
		return -EINVAL;
	/* The kernel's greatest counter is no limit. */
	if (pages >= LONG_MAX / page)
		snprintf(out, TEXT_ROOM, "max\n");
	else
		snprintf(out, TEXT_ROOM, "%llu\n", pages * page);
	return 0;
}

/* memory.oom.group: 0 or 1 */
int memory_take_switch(const char *group, const struct file *file, const char *said, char out[TEXT_ROOM])
{
	char text[TEXT_ROOM + 1];
	long long n;
	(void)group, (void)file;
	snprintf(text, sizeof text, "%s", said);
	int fault = parse_signed(strip_spaces(text), &n);
	if (fault || n < INT_MIN || n > INT_MAX)
		return fault ? fault : -ERANGE;
	if (n != 0 && n != 1)
		return -EINVAL;
	snprintf(out, TEXT_ROOM, "%lld\n", n);
	return 0;
}
