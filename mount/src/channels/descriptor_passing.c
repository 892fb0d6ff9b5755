#include "channels/descriptor_passing.h"
#include <string.h>
#include <sys/socket.h>
#include <unistd.h>

bool descriptor_passing_send(int to, const void *bytes, size_t size, const int *fds, size_t count)
{
	char room[CMSG_SPACE(DESCRIPTORS_MAX * sizeof *fds)] = { 0 };
	struct iovec all = { (void *)(size_t)bytes, size };
	struct msghdr message = { .msg_iov = &all,
		.msg_iovlen = 1,
		.msg_control = room,
		.msg_controllen = CMSG_SPACE(count * sizeof *fds) };
	struct cmsghdr *head = CMSG_FIRSTHDR(&message);
	if (!head)
		/* NULL is possible only in theory, for the compiler's analyzer. */
		return false; /* there is room for one */
	*head = (struct cmsghdr){ .cmsg_level = SOL_SOCKET,
		.cmsg_type = SCM_RIGHTS,
		.cmsg_len = CMSG_LEN(count * sizeof *fds) };
	memcpy(CMSG_DATA(head), fds, count * sizeof *fds);
	return sendmsg(to, &message, MSG_NOSIGNAL) == (ssize_t)size;
}

bool descriptor_passing_take(int from, void *bytes, size_t size, int *fds, size_t count, int flags)
{
	char room[CMSG_SPACE(DESCRIPTORS_MAX * sizeof *fds)];
	struct iovec all = { bytes, size };
	struct msghdr message = { .msg_iov = &all, .msg_iovlen = 1, .msg_control = room, .msg_controllen = sizeof room };
	ssize_t n = recvmsg(from, &message, flags | MSG_CMSG_CLOEXEC);
	struct cmsghdr *head = n > 0 ? CMSG_FIRSTHDR(&message) : NULL;
	/* The kernel has installed these descriptors in this process already, also if the message is
	   another one than was expected: so they are closed then. */
	size_t came = head && head->cmsg_type == SCM_RIGHTS ? (head->cmsg_len - CMSG_LEN(0)) / sizeof *fds : 0;
	if (came)
		memcpy(fds, CMSG_DATA(head), came * sizeof *fds);
	if (n == (ssize_t)size && came == count)
		return true;
	while (came > 0)
		close(fds[--came]); /* not all of them could be received */
	return false;
}
