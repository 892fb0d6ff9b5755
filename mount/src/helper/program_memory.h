/* The memory of a program under the supervisor. */
#ifndef PROGRAM_MEMORY_H
#define PROGRAM_MEMORY_H

#include <stdbool.h>
#include <stddef.h>
#include <sys/types.h>

/* All or nothing: false with errno if a part can't be read or written. Threads of the helper alone
   call these, without a lock. */
bool program_memory_read(pid_t thread, unsigned long at, void *out, size_t size);
bool program_memory_write(pid_t thread, unsigned long at, const void *bytes, size_t size);
/* A text that ends with a zero byte. */
bool program_memory_text(pid_t thread, unsigned long at, char *out, size_t size);

#endif
