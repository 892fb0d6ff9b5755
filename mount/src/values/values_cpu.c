/* cpu.*: a weight and a nice value are two forms of one number of shares, which is what is stored. */
#include "values/controllers.h"
#include "values/scan.h"
#include "values/values.h"
#include <errno.h>
#include <stdio.h>
#include <stdlib.h>
#include <string.h>

/* SHARES is what the weight 100 has, which is the default. IDLE_SHARES: of a group with cpu.idle. */
enum { SHARES = 1024, WEIGHT = 100, WEIGHT_MAX = 10000, IDLE_SHARES = 3, NICE_FIRST = -20, NICE_COUNT = 40 };

/* In microseconds. most_runtime is what the kernel can count in its own unit. */
static const unsigned long long shortest = 1000, longest_period = 1000000, most_runtime = (1ULL << 44) - 1;

/* The kernel's weight of each nice value, from -20 to 19. */
static const int of_nice[NICE_COUNT] = {
	88761,
	71755,
	56483,
	46273,
	36291,
	29154,
	23254,
	18705,
	14949,
	11916,
	9548,
	7620,
	6100,
	4904,
	3906,
	3121,
	2501,
	1991,
	1586,
	1277,
	1024,
	820,
	655,
	526,
	423,
	335,
	272,
	215,
	172,
	137,
	110,
	87,
	70,
	56,
	45,
	36,
	29,
	23,
	18,
	15,
};

/* To the nearest whole number; a half is rounded up. */
static unsigned long long divided(unsigned long long n, unsigned long long by)
{
	return (n + by / 2) / by;
}

/* ---------------------------------------------------------------- cpu.weight, cpu.weight.nice, cpu.idle */

/* The kept text is `0` or `1` and a line feed. */
static bool is_idle(const char *group)
{
	return values_kept(group, "cpu.idle")[0] == '1';
}

/* While the group is idle, the weight is kept and not used. */
static long shares_of(const char *group)
{
	return is_idle(group) ? IDLE_SHARES : strtol(values_kept(group, "cpu.weight"), NULL, 10);
}

/* All parsers here return 0 and the normal form, or -errno. */
int cpu_take_weight(const char *group, const struct file *file, const char *said, char out[TEXT_ROOM])
{
	unsigned long long n;
	(void)file;
	int fault = parse_unsigned(said, &n);
	if (fault)
		return fault;
	/* ERANGE comes before EINVAL, as in the kernel. */
	if (n < 1 || n > WEIGHT_MAX)
		return -ERANGE;
	if (is_idle(group))
		return -EINVAL;
	snprintf(out, TEXT_ROOM, "%llu", divided(n * SHARES, WEIGHT));
	return 0;
}

/* A nice value and back may give another weight: both are roundings of the shares. */
int cpu_show_weight(const char *group, const struct file *file, char out[TEXT_ROOM])
{
	(void)file;
	unsigned long long shares = (unsigned long long)shares_of(group);
	snprintf(out, TEXT_ROOM, "%llu\n", divided(shares * WEIGHT, SHARES));
	return 0;
}

int cpu_take_nice(const char *group, const struct file *file, const char *said, char out[TEXT_ROOM])
{
	long long n;
	int fault = parse_signed(said, &n);
	(void)file;
	if (fault)
		return fault;
	if (n < NICE_FIRST || n >= NICE_FIRST + NICE_COUNT)
		return -ERANGE;
	if (is_idle(group))
		return -EINVAL;
	snprintf(out, TEXT_ROOM, "%d", of_nice[n - NICE_FIRST]);
	return 0;
}

/* The nearest; of two the first. */
int cpu_show_nice(const char *group, const struct file *file, char out[TEXT_ROOM])
{
	long shares = shares_of(group);
	int best = 0;
	(void)file;
	while (best + 1 < NICE_COUNT && labs(of_nice[best + 1] - shares) < labs(of_nice[best] - shares))
		best++;
	snprintf(out, TEXT_ROOM, "%d\n", best + NICE_FIRST);
	return 0;
}

/* EINVAL for a number that is neither 0 nor 1, as in the kernel. */
int cpu_take_idle(const char *group, const struct file *file, const char *said, char out[TEXT_ROOM])
{
	char shares[16];
	long long n;
	(void)file;
	int fault = parse_signed(said, &n);
	if (fault || n < 0 || n > 1)
		return fault ? fault : -EINVAL;
	snprintf(out, TEXT_ROOM, "%lld\n", n);
	snprintf(shares, sizeof shares, "%d", SHARES);
	/* A group that is no longer idle has the default weight, as in the kernel. */
	return n || !is_idle(group) ? 0 : values_keep(group, "cpu.weight", shares);
}

/* ---------------------------------------------------------------- cpu.max, cpu.max.burst */

/* `max`. */
static const unsigned long long no_quota = ~0ULL;

/* The kept text is in the normal form, so it always has both numbers. */
static void read_max(const char *group, unsigned long long *quota, unsigned long long *period)
{
	const char *at = values_kept(group, "cpu.max");
	if (!scan_decimal(&at, quota)) {
		*quota = no_quota;
		at += strlen("max");
	}
	scan_decimal(&at, period);
}

/* The three values depend on each other: each write checks all of them. */
static int check_bandwidth(unsigned long long quota, unsigned long long period, unsigned long long burst)
{
	if (quota < shortest || period < shortest || period > longest_period)
		return -EINVAL;
	if (quota != no_quota && (quota > most_runtime || burst > quota || burst + quota > most_runtime))
		return -EINVAL;
	return 0;
}

/* In microseconds. 0 at first. */
static unsigned long long burst_of(const char *group)
{
	return strtoull(values_kept(group, "cpu.max.burst"), NULL, 10);
}

/* A quota or `max`, and a period, which stays unchanged if none is given. */
int cpu_take_max(const char *group, const struct file *file, const char *said, char out[TEXT_ROOM])
{
	/* As the kernel's sscanf: 20 bytes of a word. */
	char word[21];
	unsigned long long quota, period, as_was;
	const char *at = said;
	(void)file;
	read_max(group, &quota, &as_was);
	if (!scan_word(&at, word, sizeof word))
		return -EINVAL;
	if (!scan_decimal(&at, &period))
		period = as_was;
	at = word;
	if (!scan_decimal(&at, &quota)) {
		if (strcmp(word, "max") != 0)
			return -EINVAL;
		quota = no_quota;
	} else if (quota == no_quota)
		return -EINVAL; /* a number, and too large */
	int fault = check_bandwidth(quota, period, burst_of(group));
	if (fault)
		return fault;
	if (quota == no_quota)
		snprintf(out, TEXT_ROOM, "max %llu\n", period);
	else
		snprintf(out, TEXT_ROOM, "%llu %llu\n", quota, period);
	return 0;
}

/* In microseconds. */
int cpu_take_burst(const char *group, const struct file *file, const char *said, char out[TEXT_ROOM])
{
	unsigned long long quota, period, burst;
	(void)file;
	int fault = parse_unsigned(said, &burst);
	if (fault)
		return fault;
	read_max(group, &quota, &period);
	/* In the kernel it becomes nanoseconds, which have to fit into 64 bits. */
	if (burst > ~0ULL / 1000 || check_bandwidth(quota, period, burst))
		return -EINVAL;
	snprintf(out, TEXT_ROOM, "%llu\n", burst);
	return 0;
}

/* ---------------------------------------------------------------- cpu.stat, which exists without the controller too */

/* All counters are 0: nothing is measured. */
int cpu_stat_show(const char *group, const struct file *file, char out[TEXT_ROOM])
{
	static const struct file of_controller = { .controller = HAS_CPU };
	(void)file;
	bool has_more = controllers_have(group, &of_controller);
	snprintf(out, TEXT_ROOM, "usage_usec 0\nuser_usec 0\nsystem_usec 0\n%s",
		has_more ? "nr_periods 0\nnr_throttled 0\nthrottled_usec 0\nnr_bursts 0\nburst_usec 0\n" : "");
	return 0;
}
