#include "helper/program_memory.h"
#include "common/kernel.h"
#include <string.h>
#include <sys/uio.h>

/* It may block: a page of the program may be in a file system of its own, or be handed over by
   userfaultfd. It fails with EFAULT where there is no memory, and with EPERM where this process
   may not look. */
bool program_memory_read(pid_t thread, unsigned long at, void *out, size_t size)
{
	struct iovec here = { out, size }, there = { (void *)at, size };
	return process_vm_readv(thread, &here, 1, &there, 1, 0) == (ssize_t)size;
}

bool program_memory_write(pid_t thread, unsigned long at, const void *bytes, size_t size)
{
	struct iovec here = { (void *)(size_t)bytes, size }, there = { (void *)at, size };
	return process_vm_writev(thread, &here, 1, &there, 1, 0) == (ssize_t)size;
}

bool program_memory_text(pid_t thread, unsigned long at, char *out, size_t size)
{
	/* A text without a zero byte within `size` bytes is refused. */
	for (size_t done = 0; done < size;) { /* page by page: the next page may not exist */
		size_t step = PAGE - (at + done) % PAGE;
		if (step > size - done)
			step = size - done;
		if (!program_memory_read(thread, at + done, out + done, step))
			return false;
		if (memchr(out + done, 0, step))
			return true;
		done += step;
	}
	return false;
}
