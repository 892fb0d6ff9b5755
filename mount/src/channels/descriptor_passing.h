/* Descriptors that one process of makhloeum passes to another, with a few bytes, by a socket. */
#ifndef DESCRIPTOR_PASSING_H
#define DESCRIPTOR_PASSING_H

#include <stdbool.h>
#include <stddef.h>

/* The kernel keeps a message and its descriptors together, as one of a SOCK_SEQPACKET. */
enum { DESCRIPTORS_MAX = 2 };

/* False with errno. The caller keeps its descriptors: the receiver gets copies. */
bool descriptor_passing_send(int to, const void *bytes, size_t size, const int *fds, size_t count);
/* Takes one message with this number of bytes and of descriptors; `flags` as for recvmsg. False if
   there is none, or another. The caller owns the descriptors, which are closed at an exec. */
bool descriptor_passing_take(int from, void *bytes, size_t size, int *fds, size_t count, int flags);

#endif
