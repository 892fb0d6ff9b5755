/* The calls that a program's filter reports: opens for reading, and statfs. Threads of the helper answer them. */
#ifndef USER_NOTIFICATION_H
#define USER_NOTIFICATION_H

#include <linux/seccomp.h>
#include <stdbool.h>

/* Waits for the next call; one thread at a time. False once the program has ended. */
bool user_notification_next(int listener, struct seccomp_notif *call);
/* Without a lock: this one may wait for the program, and the next one never does. The call is over
   when they return. */
void user_notification_answer(int listener, const struct seccomp_notif *call);
void user_notification_let_through(int listener, const struct seccomp_notif *call);

#endif
