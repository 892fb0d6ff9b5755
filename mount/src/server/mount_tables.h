/* The tables of mounts in /proc (mounts, mountinfo, mountstats) as a run shows them: the hierarchy as a cgroup2 mount, and none of
   the machine's cgroups. The helper opens the kernel's table, which may wait for the program, and passes it to the server. There
   the file /.makhloeum.t.NUMBER has its text. So the table shows a new mount when it is read again, and can be polled. */
#ifndef MOUNT_TABLES_H
#define MOUNT_TABLES_H

#include <stddef.h>
#include <sys/types.h>

/* The server, with the engine's lock. The kernel makes the text of an open table without going to any file system. */
/* 0; -ENOENT; -ENFILE or -ENOMEM if there was no room for it. */
int mount_tables_find(long number);
/* 0 or -errno, with what `keep` returned. */
int mount_tables_read(long number, int (*keep)(void *, const char *, size_t), void *to);
/* 0 or -errno. Once it is closed as often as it was opened, it is gone. */
int mount_tables_open(long number);
void mount_tables_close(long number);
/* What a poll reports: a change of the mounts is told once, as in the kernel. 0 or -errno */
int mount_tables_poll(long number, unsigned *told);
/* Before the first one is polled: an epoll set, in which the number of a table comes when that has changed. Then mount_tables_ring wakes
   whoever polls it. */
void mount_tables_ring_in(int set);
void mount_tables_ring(long number);
/* Nobody is woken from now on. */
void mount_tables_end(void);

#endif
