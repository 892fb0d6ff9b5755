/* Paths as the kernel gives them (no empty name, no . and ..): exactly those are taken that the engine takes. */
#include "common/bounds.h"
#include "common/group_paths.h"
#include "engine/engine.h"
#include <makhloeum.h>
#include <stdint.h>
#include <stdlib.h>
#include <string.h>

static bool from_kernel(const char *path, size_t size)
{
	if (size == 0 || size > PATH_BYTES || path[0] != '/')
		return false;
	for (const char *name = path; (name = strchr(name, '/')); name++) {
		size_t n = strcspn(name + 1, "/");
		if ((n == 0 && size > 1) || (n == 1 && name[1] == '.') || (n == 2 && name[1] == '.' && name[2] == '.'))
			return false;
	}
	return true;
}

int LLVMFuzzerTestOneInput(const uint8_t *data, size_t size);
int LLVMFuzzerTestOneInput(const uint8_t *data, size_t size)
{
	static mk_handle engine;
	static bool is_open;
	static char path[4097], above[4097];
	mk_info info;
	if (!is_open && mk_open(&engine) != MK_DONE)
		abort();
	is_open = true;
	size_t n = size < sizeof path - 1 ? size : sizeof path - 1;
	memcpy(path, data, n);
	path[n] = 0;
	n = strlen(path);
	if (!from_kernel(path, n))
		return 0;
	bool taken = mk_has_group(&engine, (const uint8_t *)path, n, &info) != MK_FAULT;
	if ((engine_path_fault(path) == 0) != taken)
		abort();
	memcpy(above, path, n + 1);
	go_up(above);
	if (!is_at_or_below(path, above))
		abort();
	return 0;
}
