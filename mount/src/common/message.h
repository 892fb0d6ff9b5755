/* Messages to who started makhloeum. */
#ifndef MESSAGE_H
#define MESSAGE_H

/* Writes one sentence to standard error, after the program's name. */
void say(const char *format, ...) __attribute__((format(printf, 1, 2)));

#endif
