/* Whom a number in a /proc means. It is a number of the PID namespace in which that /proc was mounted, whoever looks: a process with a
   new namespace and no new /proc finds itself there by the number that it has outside. */
#ifndef PROC_NUMBERS_H
#define PROC_NUMBERS_H

#include <stdbool.h>
#include <sys/types.h>

/* Of each file or directory (a descriptor, also with O_PATH): whether it is of a /proc, its root, and the one that this process uses. */
bool proc_numbers_is_proc(int fd);
bool proc_numbers_is_root(int fd);
bool proc_numbers_is_own(int fd);

/* The numbers of the /proc that a file is of, as this thread asks. `from`: a directory of that /proc, as a rule. To be closed. */
struct proc_numbers {
	pid_t asker;
	bool is_own;
	int space; /* the namespace, if it is another one; -1: not known, then the numbers are taken for those that the asker has */
};
struct proc_numbers proc_numbers_of(pid_t asker, int file, int from);
void proc_numbers_close(struct proc_numbers *numbers);
/* The process here that is meant by a number there, or by that of one of its threads; and such a thread. -1: there is none; another
   -errno if it can't be known. */
pid_t proc_numbers_process(const struct proc_numbers *numbers, pid_t number);
pid_t proc_numbers_thread(const struct proc_numbers *numbers, pid_t process, pid_t number);
/* The asker's own number there, as a process or as a thread; none above 0 if it isn't there. */
pid_t proc_numbers_self(const struct proc_numbers *numbers, bool is_thread);

#endif
