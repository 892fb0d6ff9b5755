#include "values/values.h"
#include "engine/engine.h"
#include "values/controllers.h"
#include <errno.h>
#include <stdlib.h>
#include <string.h>

/* A value that was accepted in a group. The list of the group owns it. Without one the file has
   its `constant`. */
struct kept_value {
	struct kept_value *next;
	const struct file *file;
	char text[];
};

/* The counters of a kernel, in its order. All stay 0. */
static const char memory_events[] = "low 0\nhigh 0\nmax 0\noom 0\noom_kill 0\noom_group_kill 0\n";
static const char memory_stat[] =
	"anon 0\nfile 0\nkernel 0\nkernel_stack 0\npagetables 0\nsec_pagetables 0\npercpu 0\nsock 0\nvmalloc 0\nshmem "
	"0\nzswap 0\n"
	"zswapped 0\nfile_mapped 0\nfile_dirty 0\nfile_writeback 0\nswapcached 0\nanon_thp 0\nfile_thp 0\nshmem_thp 0\n"
	"inactive_anon 0\nactive_anon 0\ninactive_file 0\nactive_file 0\nunevictable 0\nslab_reclaimable 0\n"
	"slab_unreclaimable 0\nslab 0\nworkingset_refault_anon 0\nworkingset_refault_file 0\nworkingset_activate_anon 0\n"
	"workingset_activate_file 0\nworkingset_restore_anon 0\nworkingset_restore_file 0\nworkingset_nodereclaim 0\n"
	"pgscan 0\npgsteal 0\npgscan_kswapd 0\npgscan_direct 0\npgsteal_kswapd 0\npgsteal_direct 0\npgfault 0\npgmajfault "
	"0\n"
	"pgrefill 0\npgactivate 0\npgdeactivate 0\npglazyfree 0\npglazyfreed 0\nthp_fault_alloc 0\nthp_collapse_alloc 0\n";

/* A file that accepts values: its parser returns the normal form or an errno. `normal` is the value in a new group. */
#define TAKES(file_name, whose, normal, parser)                                                               \
	{                                                                                                         \
		.name = (file_name), .readable = true, .value = WRITES, .write = values_write, .controller = (whose), \
		.constant = (normal), .take = (parser)                                                                \
	}
/* A file whose text is made from other values. The parser's normal form is stored, and `show`
   makes the text of that. */
#define SHOWN(file_name, whose, normal, parser, shower)                                                       \
	{                                                                                                         \
		.name = (file_name), .readable = true, .value = WRITES, .write = values_write, .controller = (whose), \
		.constant = (normal), .take = (parser), .show = (shower)                                              \
	}
/* A counter that stays 0. `root`: the root has it too. */
#define COUNTS(file_name, whose, root, text)                                                                \
	{                                                                                                       \
		.name = (file_name), .on_root = (root), .readable = true, .controller = (whose), .constant = (text) \
	}

const struct file values_files[] = {
	TAKES("cpuset.cpus", HAS_CPUSET, "\n", cpuset_take_list),
	TAKES("cpuset.mems", HAS_CPUSET, "\n", cpuset_take_list),
	{ .name = "cpuset.cpus.effective",
		.on_root = true,
		.readable = true,
		.controller = HAS_CPUSET,
		.show = cpuset_show_effective },
	{ .name = "cpuset.mems.effective",
		.on_root = true,
		.readable = true,
		.controller = HAS_CPUSET,
		.show = cpuset_show_effective },
	SHOWN("cpuset.cpus.partition", HAS_CPUSET, "member\n", cpuset_take_partition, cpuset_show_partition),
	SHOWN("cpu.weight", HAS_CPU, "1024", cpu_take_weight, cpu_show_weight),
	{ .name = "cpu.weight.nice",
		.readable = true,
		.value = WRITES,
		.write = values_write,
		.controller = HAS_CPU,
		.take = cpu_take_nice,
		.show = cpu_show_nice,
		.form_of = "cpu.weight" },
	TAKES("cpu.idle", HAS_CPU, "0\n", cpu_take_idle),
	TAKES("cpu.max", HAS_CPU, "max 100000\n", cpu_take_max),
	TAKES("cpu.max.burst", HAS_CPU, "0\n", cpu_take_burst),
	TAKES("io.max", HAS_IO, "", io_take_max),
	TAKES("io.weight", HAS_IO, "default 100\n", io_take_weight),
	COUNTS("io.stat", HAS_IO, true, ""),
	TAKES("memory.min", HAS_MEMORY, "0\n", memory_take_limit),
	TAKES("memory.low", HAS_MEMORY, "0\n", memory_take_limit),
	TAKES("memory.high", HAS_MEMORY, "max\n", memory_take_limit),
	TAKES("memory.max", HAS_MEMORY, "max\n", memory_take_limit),
	TAKES("memory.swap.high", HAS_MEMORY, "max\n", memory_take_limit),
	TAKES("memory.swap.max", HAS_MEMORY, "max\n", memory_take_limit),
	TAKES("memory.oom.group", HAS_MEMORY, "0\n", memory_take_switch),
	COUNTS("memory.current", HAS_MEMORY, false, "0\n"),
	COUNTS("memory.peak", HAS_MEMORY, false, "0\n"),
	COUNTS("memory.swap.current", HAS_MEMORY, false, "0\n"),
	COUNTS("memory.swap.peak", HAS_MEMORY, false, "0\n"),
	COUNTS("memory.events", HAS_MEMORY, false, memory_events),
	COUNTS("memory.events.local", HAS_MEMORY, false, memory_events),
	COUNTS("memory.swap.events", HAS_MEMORY, false, "high 0\nmax 0\nfail 0\n"),
	COUNTS("memory.stat", HAS_MEMORY, true, memory_stat),
};
const size_t values_count = sizeof values_files / sizeof *values_files;

/* The name has to be one of the table. */
static const struct file *named(const char *name)
{
	const struct file *f = values_files;
	while (strcmp(f->name, name))
		f++;
	return f;
}

/* The place is a pointer to a pointer, as in server/attributes.c. */
static struct kept_value **find(struct group_state *r, const struct file *file)
{
	struct kept_value **at = &r->values;
	while (*at && (*at)->file != file)
		at = &(*at)->next;
	return at;
}

/* The caller gives the place in the list. */
static void drop(struct kept_value **at)
{
	struct kept_value *v = *at;
	*at = v->next;
	free(v);
}

/* It stays valid until the value is written again or dropped. */
const char *values_kept(const char *group, const char *name)
{
	const struct file *file = named(name);
	struct group_state *r = group_state_find(group);
	const struct kept_value *v = r ? *find(r, file) : NULL;
	return v ? v->text : file->constant;
}

/* One value for each file: an older one is freed. */
int values_keep(const char *group, const char *name, const char *text)
{
	const struct file *file = named(name);
	size_t size = strlen(text) + 1;
	struct group_state *r = group_state_make(group);
	/* First: without memory the old value stays. */
	struct kept_value *v = r ? malloc(sizeof *v + size) : NULL;
	if (!v)
		return -ENOMEM;
	struct kept_value **at = find(r, file);
	if (*at)
		drop(at);
	*v = (struct kept_value){ .next = r->values, .file = file };
	memcpy(v->text, text, size);
	r->values = v;
	return 0;
}

/* A controller that is enabled again begins with the values of a new group. */
void values_forget(struct group_state *r, unsigned controllers)
{
	WANTS_LOCK();
	for (struct kept_value **at = &r->values; *at;)
		if ((*at)->file->controller & controllers)
			drop(at);
		else
			at = &(*at)->next;
}

/* E2BIG: longer than any value. */
int values_write(const char *group, const struct file *file, const char *data, size_t size)
{
	char said[TEXT_ROOM + 1], text[TEXT_ROOM];
	if (size > TEXT_ROOM)
		return -E2BIG;
	memcpy(said, data, size);
	said[size] = 0;
	/* The parser gives the normal form, which is what is read. It fails before anything has
	   changed. */
	int fault = file->take(group, file, said, text);
	return fault ? fault : values_keep(group, file->form_of ? file->form_of : file->name, text);
}
