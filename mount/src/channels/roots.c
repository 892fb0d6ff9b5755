#include "channels/roots.h"
#include "channels/shared_memory.h"
#include <stdatomic.h>
#include <stddef.h>

static atomic_bool *changed; /* shared by the supervisor and the helper */

bool roots_begin(void)
{
	changed = shared_memory_new(sizeof *changed);
	return changed != NULL;
}

void roots_change(void)
{
	atomic_store(changed, true);
}

bool roots_have_changed(void)
{
	return atomic_load(changed);
}
