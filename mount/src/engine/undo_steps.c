#include "engine/undo_steps.h"
#include "common/growing_array.h"
#include "engine/engine.h"
#include <errno.h>

/* Those of more than one command, oldest first; `more` is how many commands they and those before
   them have beyond one each. The commands of a step have the places `from` to `to` - 1. An
   operation of one command has no entry: most have one, and take no memory. */
static struct undo_step {
	size_t from, to, more;
} * all;
static size_t count, room;

int undo_steps_make_room(void)
{
	WANTS_LOCK();
	struct undo_step *at = growing_array_make_room(all, count + 1, &room, sizeof *at);
	if (!at)
		return -ENOMEM;
	all = at;
	return 0;
}

/* engine_begin has made the room, so this cannot fail: the commands are in the engine already. */
void undo_steps_add(size_t from, size_t to)
{
	WANTS_LOCK();
	if (to < from + 2)
		return;
	size_t before = count ? all[count - 1].more : 0;
	all[count++] = (struct undo_step){ from, to, before + to - from - 1 };
}

size_t undo_steps_newest(size_t depth)
{
	WANTS_LOCK();
	return count && all[count - 1].to == depth ? all[count - 1].from : depth - 1;
}

/* Each entry counts as one, however many commands it has: `more` of the newest is what they have
   beyond that. */
size_t undo_steps_count(size_t depth)
{
	WANTS_LOCK();
	return depth - (count ? all[count - 1].more : 0);
}

/* An undo that failed half-way leaves the first commands of an operation. They stay one operation,
   which is shorter now. */
void undo_steps_cut(size_t depth)
{
	WANTS_LOCK();
	for (; count && all[count - 1].to > depth; count--)
		if (all[count - 1].from + 1 < depth) {
			all[count - 1].more -= all[count - 1].to - depth;
			all[count - 1].to = depth;
			return;
		}
}
