/* For LD_PRELOAD: makhloeum run has a fault at the end of a run, when it unmounts: FAULT says which. */
#include <signal.h>
#include <stdlib.h>
#include <string.h>

int umount2(const char *target, int flags)
{
	const char *which = getenv("FAULT");
	volatile int *nowhere = NULL;
	(void)target;
	if (which && strcmp(which, "abort") == 0)
		abort();
	*nowhere = flags;
	return 0;
}
