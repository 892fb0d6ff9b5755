/* Filters of seccomp that a program adds to itself.

   The supervisor makes a `clone3` as a `clone` (supervisor/births.h), and the kernel then asks all filters again, about the `clone`. The
   program's own filter has allowed the `clone3` already. So a filter that the program adds gets a beginning that allows a `clone` with
   WAS_CLONE3 in its sixth argument. A program can make such a call itself, but not past the supervisor, which takes the number out:
   then the filter is asked about that `clone` as the program wrote it. */
#ifndef PROGRAM_FILTER_H
#define PROGRAM_FILTER_H

#include <sys/types.h>

/* Copies the filter (struct sock_fprog) at this place, with that beginning, below the stack pointer of the thread. Returns the place
   of the copy; 0 if there is no room, or none that is certainly free: then the thread adds its own. */
unsigned long program_filter_copy(pid_t thread, unsigned long at, unsigned long stack);

#endif
