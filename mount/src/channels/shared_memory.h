/* Memory that this process shares with those that it makes. */
#ifndef SHARED_MEMORY_H
#define SHARED_MEMORY_H

#include <stddef.h>
#include <sys/mman.h>

/* It is zero at first. NULL with errno if there is none. */
static inline void *shared_memory_new(size_t size)
{
	/* cppcheck-suppress invalidFunctionArg ; without a file the number is -1 */
	void *at = mmap(NULL, size, PROT_READ | PROT_WRITE, MAP_SHARED | MAP_ANONYMOUS, -1, 0);
	return at == MAP_FAILED ? NULL : at;
}

#endif
