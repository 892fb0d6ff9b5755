/* What the server knows of each number that a process or a thread can have. Each field is changed by the file that it names, and only
   with the engine's lock. The supervisor is another process: its own table is supervisor/threads.c. */
#ifndef PROCESS_TABLE_H
#define PROCESS_TABLE_H

#include "common/bounds.h"
#include "engine/engine.h"
#include <stdbool.h>
#include <sys/types.h>

/* A process that a kill in the hierarchy reached is dying: it may fork no more. Of adopted processes alone: one that is disowned leaves
   the hierarchy at the next look, and one that has ended is still listed as a child until its parent waits for it. */
enum life { UNKNOWN, LIVE, DYING, DISOWNED, ENDED };

struct process {
	/* tasks.c: the process whose thread this number is, or 0; the ring of the threads of a process */
	/* 0 means none in each of these fields. */
	pid_t thread_of, next_thread, thread_before;
	pid_t next_order; /* server/freezer.c: the process that the order after this one's is about */
	unsigned zombie; /* zombies.c: its place in their list, from 1; 0: it is no zombie */
	unsigned char life; /* run_processes.c, or host_processes.c with --adopt */
	unsigned char freezing; /* server/freezer.c */
};

/* A page of the table (tasks.c) takes memory once something in it is written. Entry 0 is nobody's, and stays empty. */
extern struct process process_table[PIDS];

/* `number`: 0, or what is_pid accepts */
static inline struct process *process_at(pid_t number)
{
	WANTS_LOCK();
	return &process_table[number];
}

#endif
