/* What the supervisor of a program asks, and the answers of the server. */
#ifndef SUPERVISOR_QUESTIONS_H
#define SUPERVISOR_QUESTIONS_H

#include <stdbool.h>

/* A thread answers until the other end closes, and then ends this process. It also hears of changes of tables of mounts. False with
   errno. */
bool supervisor_questions_begin(int end);
/* With the lock: meanwhile the number of no process becomes another's. */
void supervisor_questions_hold_numbers(bool hold);

#endif
