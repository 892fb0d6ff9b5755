/* Job control: while the program's first process is stopped, so is the supervisor, which the shell that started the run waits for. The
   two are in one process group, with whatever else the shell has started as one job: so the terminal and the shell signal both. The
   supervisor acts by no signal of the terminal itself: what the program does about it comes first. */
#ifndef JOB_CONTROL_H
#define JOB_CONTROL_H

#include <sys/types.h>

/* The controlling terminal; -1: there is none. */
void job_control_begin(int terminal);
/* After each look: stops this process if the first process of the program is stopped, and returns once it is continued. The
   milliseconds after which it is to be asked again; -1: never. */
int job_control_follow(pid_t program);

#endif
