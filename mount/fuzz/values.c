/* The values of kept controllers: what was taken is taken again as it is read, and then reads the same. An input begins with the
   name of a file and a line feed, or with a byte that chooses the file. */
#include "values/values.h"
#include "engine/engine.h"
#include "values/controllers.h"
#include "values/machine.h"
#include <stdint.h>
#include <stdlib.h>
#include <string.h>

static void require(bool right)
{
	if (!right)
		abort();
}

/* Files whose text is what a write of it gives. io.max takes one line of its text, and a nice value is only near. */
static bool reads_as_written(const char *name)
{
	return strcmp(name, "io.max") != 0 && strcmp(name, "io.weight") != 0 && strcmp(name, "cpu.weight.nice") != 0 &&
		strcmp(name, "cpuset.cpus.partition") != 0;
}

/* The disks are the same on every machine: 7:0 to 7:3. This stands for the function of machine.c (-Wl,--wrap). */
bool __wrap_machine_has_disk(unsigned major, unsigned minor);
bool __wrap_machine_has_disk(unsigned major, unsigned minor)
{
	return major == 7 && minor < 4;
}

/* The file that the input names, and where its value begins. */
static const struct file *choose(const char *data, size_t size, size_t *from)
{
	const char *end = memchr(data, '\n', size);
	size_t name = end ? (size_t)(end - data) : 0;
	*from = name + 1;
	for (size_t i = 0; name && i < values_count; i++)
		if (strlen(values_files[i].name) == name && memcmp(values_files[i].name, data, name) == 0)
			return &values_files[i];
	*from = 1;
	return &values_files[(unsigned char)data[0] % values_count];
}

static void read_text(const struct file *file, char out[TEXT_ROOM])
{
	if (file->show)
		file->show("/", file, out);
	else
		strcpy(out, values_kept("/", file->name));
}

int LLVMFuzzerTestOneInput(const uint8_t *data, size_t size);
int LLVMFuzzerTestOneInput(const uint8_t *data, size_t size)
{
	static bool has_machine;
	char text[TEXT_ROOM], again[TEXT_ROOM];
	if (size == 0)
		return 0;
	if (!has_machine)
		require(has_machine = machine_read());
	size_t from;
	const struct file *file = choose((const char *)data, size, &from);
	if (!file->take)
		return 0;
	engine_lock();
	if (values_write("/", file, (const char *)data + from, size - from) == 0) {
		read_text(file, text);
		size_t n = strlen(text);
		require(n == 0 || text[n - 1] == '\n');
		if (reads_as_written(file->name) && n) {
			require(values_write("/", file, text, n) == 0);
			read_text(file, again);
			require(strcmp(text, again) == 0);
		}
	}
	struct group_state *r = group_state_find("/");
	if (r)
		values_forget(r, ~0U);
	group_state_tidy(r);
	engine_unlock();
	return 0;
}
