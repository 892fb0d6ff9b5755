#include "server/texts.h"
#include "engine/engine.h"
#include "processes/visible_processes.h"
#include "server/freezer.h"
#include "values/values.h"
#include <string.h>

int texts_read(const char *group, const struct file *file, bool keeps, const char **text, size_t *size)
{
	/* The lock protects it: the caller copies the text before it gives the lock back. */
	static char own[TEXT_ROOM];
	WANTS_LOCK();
	int fault = file->show ? file->show(group, file, own) : 0;
	if (fault)
		return fault;
	if (file->show || file->take || file->constant) {
		*text = file->show ? own : file->take ? values_kept(group, file->name) : file->constant;
		*size = strlen(*text);
		return 0;
	}
	/* A file that the engine doesn't know is made of another one's text, by a look: a trace names
	   only files that cgreplay knows. */
	if (file->made_of)
		fault = engine_look("cat %s %s", group, file->made_of);
	else
		fault = keeps ? engine_line("cat %s %s", group, file->name) : engine_look("cat %s %s", group, file->name);
	if (fault)
		return fault;
	*text = engine_text(size);
	/* First without the zombies, of which the engine knows nothing, and then with what is frozen
	   among the others. Each may put a text of its own in place of the engine's. */
	fault = visible_processes_text(group, file, text, size);
	return fault ? fault : freezer_text(group, file, text, *size);
}
