/* makhloeum run

   The folder run: the start and the end of a run: its namespaces, its processes, and the loop that asks each part of the supervisor.
   Who runs it: the process that becomes the supervisor, and in each child what the child does first.
   Before the program runs it may wait for anything: nothing of the program can keep it waiting yet. From then on the supervisor's rule
   holds (supervisor/tracer.h). At the end, when all processes of the program are killed, it waits for the server with a limit of time.
   It is the only folder that includes all others. No other one includes it. */
#ifndef RUN_H
#define RUN_H

#include "server/serve.h"
#include <stdbool.h>

int run_program(char **program, const struct wishes *wishes);

/* What a run needs of the kernel (needs.c) */

/* Whether this machine allows every call, and as many descriptors, without which the processes of a run would end, wait forever, or
   show the program what is the machine's own. A sandbox's filter may refuse any. False after an error message. Calls that have an error
   message of their own where they are made are left out. */
bool needs_are_met(void);

/* A new user namespace and mount namespace, with the file system over /sys/fs/cgroup (run_namespaces.c) */

/* Enters both namespaces. The user keeps its number, or becomes the superuser there, either as the only user or with all
   users that it had. False after an error message. */
bool run_namespaces_enter(const struct wishes *wishes);
/* In the process that becomes the program, once the mount was made: a superuser gets namespaces of its own below these. Mounts
   that come from above can't be unmounted or moved there, so what the mount covers stays covered. False after an error
   message. */
bool run_namespaces_enter_below(const struct wishes *wishes);
/* Before the execve: who isn't the superuser finds and executes a program by the modes of files alone, as without a run. The
   namespace has given all capabilities to this process. */
void run_namespaces_give_up_rights(void);
/* Mounts, and returns the connection; -1 after an error message. The connection goes to the
   server, and ends the mount when it is closed. */
int run_namespaces_mount(void);
/* A copy of the mount, in which nobody can mount anything: a descriptor of its root, or -1 with errno. */
int run_namespaces_copy_mount(void);

/* The working folder and the descriptors that the program would inherit, where they are the machine's own groups or lead there
   (inherited_files.c) */

/* Before the mount is made. Closes inherited descriptors of the machine's groups, and remembers whether the working folder is one.
   False after an error message, also if a standard stream is one. */
bool inherited_files_let_go(void);
/* In the process that becomes the program, once it is in its namespaces. Each inherited directory is opened again there, or closed if
   it isn't found by its path. If the working folder is one of the machine's groups, the root of the hierarchy becomes the working
   folder. False after an error message. */
bool inherited_files_enter(void);

/* This process becomes another program (execute.c). As execvp, but ENOENT means that no folder of PATH that may be searched has the
   program. It returns only if it fails: the errno. */
int execute(const char *name, char **words);

#endif
