#include "values/machine.h"
#include "common/cleanup.h"
#include "common/proc_status.h"
#include "values/files.h"
#include <fcntl.h>
#include <stdio.h>

static const char *const paths[MACHINE_LISTS] = {
	[CPUS_POSSIBLE] = "/sys/devices/system/cpu/possible",
	[CPUS_ONLINE] = "/sys/devices/system/cpu/online",
	[NODES_POSSIBLE] = "/sys/devices/system/node/possible",
	[NODES_WITH_MEMORY] = "/sys/devices/system/node/has_memory",
};
/* Written once, by machine_read, and only read afterwards. */
static struct number_ranges lists[MACHINE_LISTS];

static struct disk {
	unsigned major, minor;
} * disks;
static size_t disk_count;

static void read_list(const char *path, struct number_ranges *out)
{
	char line[TEXT_ROOM];
	/* Without the file the list has the number 0 alone. */
	if (proc_status_text(path, line, sizeof line) < 0)
		snprintf(line, sizeof line, "0");
	if (number_ranges_read(line, NUMBER_RANGES_MAX, out) || number_ranges_is_empty(out))
		(void)number_ranges_read("0", NUMBER_RANGES_MAX, out); /* it is a list */
}

/* One at a time: a machine has few. */
static bool add_disk(unsigned major, unsigned minor)
{
	struct disk *more = realloc(disks, (disk_count + 1) * sizeof *more);
	if (!more)
		return false;
	disks = more;
	disks[disk_count++] = (struct disk){ major, minor };
	return true;
}

/* Each device has a link MAJOR:MINOR there, and a part of a device has a file `partition`. */
static bool read_disks(void)
{
	char path[300];
	struct disk d;
	struct dirent *entry;
	int end;
	bool added = true;
	cleanup_directory DIR *all = opendir("/sys/dev/block");
	/* Without the directory the machine has no device. */
	while (all && added && (entry = readdir(all))) {
		if (sscanf(entry->d_name, "%u:%u%n", &d.major, &d.minor, &end) != 2 || entry->d_name[end])
			continue;
		snprintf(path, sizeof path, "%s/partition", entry->d_name);
		/* The name is a link to the directory of the device. */
		if (faccessat(dirfd(all), path, F_OK, 0))
			added = add_disk(d.major, d.minor);
	}
	return added;
}

/* False: no memory for the devices. */
bool machine_read(void)
{
	for (size_t i = 0; i < MACHINE_LISTS; i++)
		read_list(paths[i], &lists[i]);
	return read_disks();
}

const struct number_ranges *machine_has(enum machine_list which)
{
	return &lists[which];
}

/* Only this is asked of a device: nothing is read from it. */
bool machine_has_disk(unsigned major, unsigned minor)
{
	for (size_t i = 0; i < disk_count; i++)
		if (disks[i].major == major && disks[i].minor == minor)
			return true;
	return false;
}
