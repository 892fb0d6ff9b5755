/* A group with a process in it, a refusal, and an undo. */
#include <makhloeum.h>
#include <stdio.h>
#include <string.h>

static void show(mk_handle *h)
{
	mk_info info;
	uint64_t current;
	if (mk_current(h, "/a", &current, &info) == MK_DONE)
		printf("processes of /a: %llu\n", (unsigned long long)current);
}

int main(void)
{
	mk_handle h = { 0 };
	mk_info info;
	size_t mark;
	if (mk_open(&h) != MK_DONE)
		return 1;
	if (mk_mkdir(&h, "/a", &info) != MK_DONE || mk_fork(&h, 1, 2, &info) != MK_DONE)
		return 1;
	mk_depth(&h, &mark);
	if (mk_attach(&h, "/a", 2, &info) != MK_DONE)
		return 1;
	show(&h);
	if (mk_rmdir(&h, "/a", &info) == MK_REFUSED)
		printf("rmdir /a: %s (%s)\n", strerror(info.error), mk_name(info.code));
	if (mk_undo_to(&h, mark, &info) != MK_DONE)
		return 1;
	printf("undone commands: %zu\n", info.count);
	show(&h);
	return mk_close(&h) == MK_DONE ? 0 : 1;
}
