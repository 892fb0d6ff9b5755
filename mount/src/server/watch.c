#include "server/watch.h"
#include "common/cleanup.h"
#include "companion/companion.h"
#include "engine/engine.h"
#include "server/open_files.h"
#include "server/texts.h"
#include <fcntl.h>
#include <pthread.h>
#include <stdio.h>
#include <stdlib.h>
#include <string.h>
#include <unistd.h>

enum { TEXT_MAX = 40, PATH_SIZE = PATH_MAX_SAID + 32 };

/* The list of its group owns it (`next`, with the engine's lock). `to_tell` and `queued` belong to
   the queue, and need its lock. `text`: what was last compared. */
struct watched {
	struct watched *next; /* among those of the group */
	struct watched *to_tell; /* next in the queue of files that the companion is told about */
	const struct file *file;
	char text[TEXT_MAX];
	bool queued;
	const struct group_state *of;
};

/* Only while the companion is busy does a file wait in the queue, and a thread for the companion. The queue has a lock of its own,
   since that thread must not have the engine's: the companion may wait for an answer of this server. Who has both takes the engine's
   first. */
static struct watched *queue, **queue_end = &queue;
static pthread_mutex_t queue_lock = PTHREAD_MUTEX_INITIALIZER;
static bool waits;
static struct companion companion = { -1, -1 };

/* If the text cannot be read, it is empty. No text is: so whoever waits is woken now or at the next change, and reads. */
static void read_text(struct watched *w, char out[TEXT_MAX])
{
	size_t size = 0;
	const char *text = NULL;
	bool found = texts_read(w->of->path, w->file, false, &text, &size) == 0;
	snprintf(out, TEXT_MAX, "%.*s", found ? (int)size : 0, found ? text : "");
}

/* A file that nobody ever looked up can neither be polled nor watched, so it is not compared. */
int watch_seen(const char *group, const struct file *file)
{
	WANTS_LOCK();
	struct group_state *r = group_state_make(group);
	struct watched *w = r ? r->watched : NULL;
	while (w && w->file != file)
		w = w->next;
	if (w)
		return 0;
	w = r ? calloc(1, sizeof *w) : NULL;
	if (!w)
		return -ENOMEM;
	w->of = r;
	w->file = file;
	read_text(w, w->text);
	w->next = r->watched;
	r->watched = w;
	return 0;
}

/* With the queue's lock. The path of the first file in the queue; false: there is none. */
static bool first_path(char out[PATH_SIZE])
{
	if (queue)
		/* The path is copied: once the queue's lock is free, the group may be removed and the
		   entry freed. */
		snprintf(out, PATH_SIZE, "%s/%s", queue->of->path, queue->file->name);
	return queue != NULL;
}

/* With the queue's lock. */
/* The entry stays in the list of its group. */
static void take_first(void)
{
	queue->queued = false;
	queue = queue->to_tell;
	if (!queue)
		queue_end = &queue;
}

/* The thread that waits for the companion. It has no lock meanwhile, and ends with the queue or with the process. Once the companion
   has ended, nobody is told any more, and the mount goes on without inotify. */
static void *tell(void *unused)
{
	char path[PATH_SIZE];
	pthread_mutex_lock(&queue_lock);
	while (first_path(path)) {
		take_first(); /* first, so that a change meanwhile puts it in the queue again */
		pthread_mutex_unlock(&queue_lock);
		companion_tell(companion.to, path);
		pthread_mutex_lock(&queue_lock);
	}
	waits = false;
	pthread_mutex_unlock(&queue_lock);
	return unused;
}

/* With the queue's lock. If no thread can be made now, the next change tries again. */
static void tell_all(void)
{
	char path[PATH_SIZE];
	pthread_t thread;
	/* While a thread waits for the companion, it also takes what is queued after that, in this
	   order. */
	if (waits)
		return;
	while (first_path(path) && companion_tell_now(companion.to, path))
		take_first();
	if (queue)
		waits = pthread_create(&thread, NULL, tell, NULL) == 0 && pthread_detach(thread) == 0;
}

static void check(struct watched *w)
{
	char text[TEXT_MAX];
	read_text(w, text);
	if (text[0] && strcmp(text, w->text) == 0)
		return;
	/* First those that poll, in this thread: fuse_lowlevel_notify_poll waits for nobody. */
	memcpy(w->text, text, TEXT_MAX);
	open_files_wake(w->of, w->file);
	/* nobody waits with the queue's lock, so this thread, which has the engine's, soon goes on */
	pthread_mutex_lock(&queue_lock);
	if (!w->queued) {
		w->queued = true;
		w->to_tell = NULL;
		*queue_end = w;
		queue_end = &w->to_tell;
	}
	tell_all();
	pthread_mutex_unlock(&queue_lock);
}

/* The texts are read anew: a change that is taken back before the look is no change. */
static void check_all(const struct group_state *r)
{
	for (struct watched *w = r ? r->watched : NULL; w; w = w->next)
		check(w);
}

void watch_above(const char *group)
{
	char at[PATH_MAX_SAID];
	WANTS_LOCK();
	snprintf(at, sizeof at, "%s", group);
	/* The root has no notified file. */
	for (; !is_root(at); go_up(at))
		check_all(group_state_find(at));
}

void watch_below(const char *group)
{
	WANTS_LOCK();
	group_state_each(group, check_all);
	watch_above(group);
}

void watch_process(pid_t pid)
{
	char group[PATH_MAX_SAID];
	int fault = engine_where(pid, group, sizeof group);
	if (fault == 0)
		watch_above(group);
	/* Which group it is can't be known now, so all are compared. */
	else if (fault == -ENOMEM)
		watch_below("/");
}

/* Removes an entry from the queue. Without it the queue would keep a pointer to memory that is
   freed. */
static void unqueue(struct watched *w)
{
	pthread_mutex_lock(&queue_lock);
	for (struct watched **at = &queue; *at; at = &(*at)->to_tell)
		if (*at == w) {
			*at = w->to_tell;
			if (!*at)
				queue_end = at;
			break;
		}
	pthread_mutex_unlock(&queue_lock);
}

void watch_forget(struct group_state *r)
{
	WANTS_LOCK();
	while (r->watched) {
		struct watched *w = r->watched;
		r->watched = w->next;
		unqueue(w); /* the thread that waits for the companion has the queue's lock alone */
		free(w);
	}
}

/* In the process that mounts, before the server exists. */
bool watch_begin(const char *mountpoint, int root)
{
	return companion_start(&companion, mountpoint, root);
}

/* Before anybody can use the mount: serve calls it before the first request is answered. */
void watch_mounted(const char *mountpoint)
{
	struct mount_id which;
	cleanup_fd int root = open(mountpoint, O_PATH | O_DIRECTORY | O_CLOEXEC);
	/* if it fails, the mount has gone already, or inotify reports nothing */
	if (root >= 0 && beneath_identify(root, &which))
		companion_show(companion.to, &which);
}

pid_t watch_leave(void)
{
	close(companion.to);
	return companion.process;
}
