/* An event loop that serves commands from standard input and, at the first tick of a timer after them, names the groups that are full.
 *     printf 'mkdir /a\nwrite /a pids.max 1\nwrite /a cgroup.procs 1\n' | ./loop
 */
#include <makhloeum.h>
#include <poll.h>
#include <stdio.h>
#include <string.h>
#include <unistd.h>

enum { TICK_MILLISECONDS = 10, LINE_BYTES = 8192 + 1, ANSWER_BYTES = 65536 }; /* a line has a line feed too */

struct service {
	mk_handle hierarchy;
	char line[LINE_BYTES];
	size_t len;
	uint64_t number; /* of the last command */
	uint64_t looked; /* the number at the last look for full groups */
};

/* Answers each whole line that has come. */
static void answer_lines(struct service *it)
{
	static uint8_t out[ANSWER_BYTES];
	char *feed;
	while ((feed = memchr(it->line, '\n', it->len)) != NULL) {
		size_t size = (size_t)(feed - it->line);
		mk_info info;
		uint32_t status = mk_line(&it->hierarchy, it->number + 1, (const uint8_t *)it->line, size, out, sizeof out,
			&info);
		if (status == MK_DONE || status == MK_REFUSED || status == MK_FAULT)
			it->number++;
		fwrite(out, 1, info.len, stdout);
		if (info.error != 0)
			printf("  (%s)\n", strerror(info.error));
		it->len -= size + 1;
		memmove(it->line, feed + 1, it->len);
	}
}

static void look_for_full_groups(struct service *it)
{
	static uint8_t paths[MK_GROUPS_MAX];
	mk_info info;
	uint64_t current, limit;
	if (it->looked == it->number)
		return;
	it->looked = it->number;
	if (mk_groups(&it->hierarchy, paths, sizeof paths, &info) != MK_DONE)
		return;
	const char *path = (const char *)paths;
	for (size_t left = info.count; left-- > 0; path += strlen(path) + 1)
		if (mk_limit(&it->hierarchy, path, &limit, &info) == MK_DONE &&
			mk_current(&it->hierarchy, path, &current, &info) == MK_DONE && current >= limit)
			printf("%s is full: %llu of %llu\n", path, (unsigned long long)current, (unsigned long long)limit);
}

int main(void)
{
	static struct service it;
	struct pollfd input = { .fd = STDIN_FILENO, .events = POLLIN };
	if (mk_open(&it.hierarchy) != MK_DONE)
		return 1;
	for (bool ended = false; !ended;) {
		int ready = poll(&input, 1, TICK_MILLISECONDS);
		if (ready < 0)
			return 1;
		if (ready > 0) {
			ssize_t got = read(input.fd, it.line + it.len, sizeof it.line - it.len);
			ended = got <= 0;
			it.len += got > 0 ? (size_t)got : 0;
			answer_lines(&it);
			if (it.len == sizeof it.line)
				return 1; /* longer than a line may be */
		}
		if (ready == 0 || ended)
			look_for_full_groups(&it);
		fflush(stdout);
	}
	return mk_close(&it.hierarchy) == MK_DONE ? 0 : 1;
}
