/* The files of a group: one table, from which everything else knows them. */
#ifndef FILES_H
#define FILES_H

#include <number_parser.h>
#include <stdbool.h>
#include <stddef.h>
#include <sys/types.h>

/* The longest text of a file that the engine does not have. It is a page, as in the kernel. */
enum { TEXT_ROOM = 4096 };

struct file {
	/* As in a listing, with the name of its controller before the dot. */
	const char *name;
	bool on_root, readable, extra; /* extra: exists only with --extra */
	enum value value; /* WRITES: `write` handles it */
	bool notified; /* a changed text wakes those that poll or watch it */
	unsigned controller; /* its controller (controllers.h); 0: the hierarchy itself */
	const char *
		constant; /* of a file that the engine does not have: its text, or the text for a value that was never written */
	/* of such a file: makes its text; and handles a write, as write(2) gave it: 0 or -errno, and then nothing has changed */
	int (*show)(const char *group, const struct file *file, char out[TEXT_ROOM]);
	int (*write)(const char *group, const struct file *file, const char *data, size_t size);
	/* of a kept value: the normal form of what was written, or -errno */
	int (*take)(const char *group, const struct file *file, const char *said, char out[TEXT_ROOM]);
	const char *form_of; /* NULL, or the name of the file whose value it is another form of: that file stores it */
	const char *made_of; /* NULL, or the engine's file of whose text it shows more */
};

/* The files that exist: the engine's, with `extra` the mount's own, and those of kept controllers. */
void files_use_extra(void);
const struct file *file_at(size_t i);
const struct file *file_named(const char *name, bool on_root);
mode_t file_mode(const struct file *file);
/* A number for each file, the same whichever files exist; and the file with that number, or NULL. */
size_t file_place(const struct file *file);
const struct file *file_in_place(size_t i);

#endif
