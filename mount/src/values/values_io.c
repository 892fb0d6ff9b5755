/* io.*: a write names one device and leaves the others unchanged. The text that is stored is the text that is read. */
#include "values/machine.h"
#include "values/scan.h"
#include "values/values.h"
#include <errno.h>
#include <limits.h>
#include <stdio.h>
#include <stdlib.h>
#include <string.h>

enum { RATES = 4, WEIGHT_MAX = 10000 };

static const char *const rate_names[RATES] = { "rbps", "wbps", "riops", "wiops" };

/* The device at the start, as MAJOR:MINOR and a blank: 0, -EINVAL, or -ENODEV if it is not a whole block device of this
   machine. */
/* `at` is behind the device afterwards. */
static int take_device(const char **at, char device[32])
{
	unsigned long long major, minor;
	if (!scan_decimal(at, &major) || **at != ':')
		return -EINVAL;
	++*at;
	if (!scan_decimal(at, &minor) || !is_space(**at))
		return -EINVAL;
	snprintf(device, 32, "%u:%u", (unsigned)major, (unsigned)minor);
	return machine_has_disk((unsigned)major, (unsigned)minor) ? 0 : -ENODEV;
}

/* The line of a device in a text, and its length; the end of the text if it has none. */
/* A device is followed by a blank: 8:1 is not the beginning of 8:16. */
static const char *find_line(const char *text, const char *device, size_t *size)
{
	size_t n = strlen(device);
	*size = 0;
	while (*text) {
		size_t length = strcspn(text, "\n") + 1;
		if (strncmp(text, device, n) == 0 && text[n] == ' ') {
			*size = length;
			return text;
		}
		text += length;
	}
	return text;
}

/* The text with the line of a device replaced, or added at the end; an empty line removes it. */
static int replace_line(const char *text, const char *device, const char *line, char out[TEXT_ROOM])
{
	size_t size;
	const char *at = find_line(text, device, &size);
	int n = snprintf(out, TEXT_ROOM, "%.*s%s%s", (int)(at - text), text, line, at + size);
	return n < TEXT_ROOM ? 0 : -ENOMEM;
}

/* ---------------------------------------------------------------- io.max */

/* No limit: 64 bits for bytes, 32 for operations. */
static unsigned long long greatest(int rate)
{
	return rate < 2 ? ULLONG_MAX : UINT_MAX;
}

/* A line has all four rates, so those of the lines behind it are not looked at. Without a line there is no limit. */
static void read_rates(const char *line, unsigned long long rates[RATES])
{
	for (int i = 0; i < RATES; i++) {
		const char *found = strstr(line, rate_names[i]);
		size_t name = strlen(rate_names[i]) + 1;
		rates[i] = found && found[name] != 'm' ? strtoull(found + name, NULL, 10) : greatest(i);
	}
}

/* One NAME=NUMBER or NAME=max. */
/* The word is changed: its equals sign becomes its end. */
static int take_rate(char *word, unsigned long long rates[RATES])
{
	unsigned long long n;
	char *equals = strchr(word, '=');
	if (!equals)
		return -EINVAL;
	*equals = 0;
	const char *value = equals + 1;
	if (strcmp(value, "max") == 0)
		n = ULLONG_MAX;
	else if (!scan_decimal(&value, &n))
		return -EINVAL;
	/* ERANGE for 0, EINVAL for 1: the kernel's own. */
	if (n == 0)
		return -ERANGE;
	for (int i = 0; i < RATES; i++)
		if (strcmp(word, rate_names[i]) == 0 && n > 1) {
			rates[i] = n < greatest(i) ? n : greatest(i);
			return 0;
		}
	return -EINVAL;
}

/* All four are written, also those that have no limit, as the kernel writes them. */
static void put_rates(const char *device, const unsigned long long rates[RATES], char line[TEXT_ROOM])
{
	bool limits = false;
	int n = snprintf(line, TEXT_ROOM, "%s", device);
	for (int i = 0; i < RATES; i++) {
		limits |= rates[i] != greatest(i);
		if (rates[i] == greatest(i))
			n += snprintf(line + n, TEXT_ROOM - (size_t)n, " %s=max", rate_names[i]);
		else
			n += snprintf(line + n, TEXT_ROOM - (size_t)n, " %s=%llu", rate_names[i], rates[i]);
	}
	snprintf(line + n, TEXT_ROOM - (size_t)n, "\n");
	/* A device without limits has no line. */
	if (!limits)
		line[0] = 0;
}

/* A write changes the rates that it names, and keeps the others of this device. */
int io_take_max(const char *group, const struct file *file, const char *said, char out[TEXT_ROOM])
{
	char device[32], word[27], line[TEXT_ROOM];
	unsigned long long rates[RATES];
	size_t size;
	const char *at = said, *kept = values_kept(group, file->name);
	int fault = take_device(&at, device);
	if (fault)
		return fault;
	read_rates(find_line(kept, device, &size), rates);
	/* Nothing is stored before the last word was accepted. */
	while (scan_word(&at, word, sizeof word))
		if ((fault = take_rate(word, rates)))
			return fault;
	put_rates(device, rates, line);
	return replace_line(kept, device, line, out);
}

/* ---------------------------------------------------------------- io.weight */

/* EINVAL for all that is no weight: the kernel does not tell them apart. */
static int take_weight(const char *at, unsigned long long *out)
{
	return scan_decimal(&at, out) && *out >= 1 && *out <= WEIGHT_MAX ? 0 : -EINVAL;
}

/* `default N` or N; DEVICE N, or DEVICE default */
int io_take_weight(const char *group, const struct file *file, const char *said, char out[TEXT_ROOM])
{
	char device[32], line[64] = "";
	unsigned long long n;
	const char *at = said, *kept = values_kept(group, file->name);
	/* Without a device the default is meant. */
	if (!strchr(said, ':')) {
		static const char word[] = "default";
		if (strncmp(at, word, sizeof word - 1) == 0)
			at += sizeof word - 1;
		if (take_weight(at, &n))
			return -EINVAL;
		snprintf(line, sizeof line, "default %llu\n", n);
		return replace_line(kept, word, line, out);
	}
	int fault = take_device(&at, device);
	if (fault)
		return fault;
	while (is_space(*at))
		at++;
	if (strncmp(at, "default", 7) != 0) {
		if (take_weight(at, &n))
			return -EINVAL;
		snprintf(line, sizeof line, "%s %llu\n", device, n);
	}
	return replace_line(kept, device, line, out);
}
