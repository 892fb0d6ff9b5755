/* Each function that needs the engine's lock ends a program that calls it without the lock. Built with CHECK_LOCK, over the
   sources of the mount without main.c. */
#include "engine/engine.h"
#include "engine/engine_queries.h"
#include "engine/undo_steps.h"
#include "processes/members.h"
#include "processes/process_table.h"
#include "processes/reservations.h"
#include "processes/tasks.h"
#include "processes/zombies.h"
#include "server/attributes.h"
#include "server/cgroup_namespaces.h"
#include "server/control.h"
#include "server/freezer.h"
#include "server/group_state.h"
#include "server/mount_tables.h"
#include "server/open_files.h"
#include "server/operations.h"
#include "server/owner.h"
#include "server/texts.h"
#include "server/watch.h"
#include "values/values.h"
#include <signal.h>
#include <stdio.h>
#include <stdlib.h>
#include <string.h>
#include <sys/wait.h>
#include <unistd.h>

/* PATIENCE: seconds, after which a call that waits is ended. SAID: bytes of what it says. */
enum { PATIENCE = 60, SAID = 256 };

static struct stat st;
static struct group_state remembered = { .path = "/" };
static struct node node = { .group = &remembered }, found;
static struct open_file opened;
static size_t size;
static const char *text;
static char group[PATH_MAX_SAID];

static void line(void)
{
	engine_line("mkdir /x");
}
static void look_at(void)
{
	engine_look("cat / cgroup.procs");
}
static void take_text(void)
{
	engine_text(&size);
}
static void where(void)
{
	engine_where(1, group, sizeof group);
}
static void has_group(void)
{
	engine_has_group("/");
}
static void children(void)
{
	engine_children("/", &text, &size);
}
static void groups(void)
{
	engine_groups("/", &text, &size);
}
static void depth(void)
{
	engine_depth();
}
static void history(void)
{
	engine_history(0, &text, &size);
}
static void handle(void)
{
	engine_handle();
}
static void finish_several(void)
{
	engine_finish(0);
}
static void forget(void)
{
	engine_forget();
}
static void find(void)
{
	group_state_find("/");
}
static void make(void)
{
	group_state_make("/");
}
static void lose(void)
{
	group_state_lose("/");
}
static void numbered(void)
{
	group_state_numbered(1);
}
static void tidy(void)
{
	group_state_tidy(&remembered);
}
static void node_find(void)
{
	nodes_find(~(uint64_t)0, &found);
}
/* In a group that was removed nothing is looked for. */
static void node_below(void)
{
	static struct group_state removed = { .path = "/x", .gone = true };
	nodes_find_below(&(struct node){ .group = &removed }, "x", &found);
}
static void node_above(void)
{
	nodes_find_above(&node, &found);
}
static void node_known(void)
{
	nodes_known(&node);
}
static void node_forget(void)
{
	nodes_forget(1, 1);
}
static void begin(void)
{
	owner_begin(&remembered, NULL);
}
static void apply(void)
{
	owner_apply(&node, &st);
}
static void set(void)
{
	owner_set(&node, &st, 0);
}
static void touch(void)
{
	owner_touch(&remembered);
}
static void forget_owner(void)
{
	owner_forget(&remembered);
}
static void forget_attributes(void)
{
	attributes_forget(&remembered);
}
static void seen(void)
{
	watch_seen("/", file_named("cgroup.events", false));
}
static void above(void)
{
	watch_above("/");
}
static void below(void)
{
	watch_below("/");
}
static void process(void)
{
	watch_process(1);
}
static int ignore(pid_t pid, const char *in)
{
	return pid < 0 || !in;
}
static void listed(void)
{
	members_each("/", false, ignore);
}
static void visit(const struct group_state *r)
{
	(void)r;
}
static void visit_each(void)
{
	group_state_each("/", visit);
}
static void prepare(void)
{
	cgroup_namespaces_prepare(1, 1, NULL);
}
static void zombies_room(void)
{
	zombies_make_room(1);
}
static void forget_watch(void)
{
	watch_forget(&remembered);
}
static void forget_seen(void)
{
	watch_seen("/x", file_named("cgroup.events", false));
	watch_forget(group_state_find("/x"));
}
static void new_open(void)
{
	open_files_new(&remembered, NULL, A_DIRECTORY);
}
static void free_open(void)
{
	open_files_free(calloc(1, sizeof opened));
}
static void keep_text(void)
{
	open_files_keep(&opened, "x", 1);
}
static void goes_on(void)
{
	open_files_goes_on(&opened, 1);
}
static void poll_open(void)
{
	open_files_poll(&opened, NULL);
}
static void lose_files(void)
{
	open_files_lose_files(&remembered, 0);
}
static void has(void)
{
	open_files_has(&opened, 1, 0);
}
static void read_open(void)
{
	open_files_read(&opened, group, 0, 0);
}
static void is_gone(void)
{
	open_files_is_gone(&opened);
}
static void wake(void)
{
	open_files_wake(&remembered, NULL);
}
static void lose_open(void)
{
	open_files_lose(&remembered);
}
static void control(void)
{
	control_write(0, "1", 1);
}

static void begin_several(void)
{
	engine_begin();
}
static void room_for_operation(void)
{
	undo_steps_make_room();
}
static void add_operation(void)
{
	undo_steps_add(0, 1);
}
static void newest_operation(void)
{
	undo_steps_newest(1);
}
static void count_operations(void)
{
	undo_steps_count(1);
}
static void cut_operations(void)
{
	undo_steps_cut(0);
}
static void reserve(void)
{
	static const struct reservation like;
	unsigned number;
	reservations_add(&like, "/", &number);
}
static void find_reserved(void)
{
	reservations_find(1);
}
static void drop_reserved(void)
{
	reservations_drop(1);
}
static void count_reserved(void)
{
	reservations_count();
}
static void count_reserved_below(void)
{
	reservations_below("/");
}
static void kill_reserved(void)
{
	reservations_kill("/");
}
static void in_table(void)
{
	process_at(1);
}
static void begin_process(void)
{
	tasks_begin_process(2);
}
static void add_thread(void)
{
	tasks_add(3, 2);
}
static void drop_thread(void)
{
	tasks_drop(3);
}
static void any_thread(void)
{
	tasks_any();
}
static void next_thread(void)
{
	tasks_next(1);
}
static void forget_values(void)
{
	values_forget(&remembered, 0);
}

static void current(void)
{
	uint64_t count;
	engine_current("/", &count);
}
static void limit(void)
{
	uint64_t most;
	engine_limit("/x", &most);
}
static int keep(void *to, const char *bytes, size_t count)
{
	return !to && bytes && count ? 1 : 0;
}
static void read_control(void)
{
	control_read(0, keep, NULL);
}
static void find_table(void)
{
	mount_tables_find(1);
}
static void close_table(void)
{
	mount_tables_close(1);
}
static void ring_table(void)
{
	mount_tables_ring(1);
}
/* A file whose text needs no other call. */
static void read_text(void)
{
	texts_read("/", &(struct file){ .name = "cpu.stat", .constant = "\n" }, false, &text, &size);
}
static void order(void)
{
	pid_t process;
	bool stop;
	freezer_order(&process, &stop);
}
static void frozen_moved(void)
{
	freezer_moved(2, "/");
}
static void frozen_born(void)
{
	freezer_born(2, "/");
}
static void frozen_gone(void)
{
	freezer_gone(2);
}
static void frozen_told(void)
{
	freezer_told(2, false);
}
static void made(void)
{
	cgroup_namespaces_made(1, 1);
}
static void root_of(void)
{
	cgroup_namespaces_root(1);
}

/* The signal that ends a call, and what is said. A lock that was given back is no lock. */
static int ends_by(void (*call)(void), bool locked, char said[SAID])
{
	int status = 0, ends[2];
	size_t size = 0;
	if (pipe(ends))
		_exit(1);
	pid_t pid = fork();
	if (pid == 0) {
		alarm(PATIENCE);
		if (dup2(ends[1], STDERR_FILENO) < 0)
			_exit(1);
		engine_lock();
		if (!locked)
			engine_unlock();
		call();
		_exit(0);
	}
	close(ends[1]);
	ssize_t n;
	while ((n = read(ends[0], said + size, SAID - 1 - size)) > 0)
		size += (size_t)n;
	said[size] = 0;
	close(ends[0]);
	waitpid(pid, &status, 0);
	return WIFSIGNALED(status) ? WTERMSIG(status) : 0;
}

/* Functions that call others which require the lock too: each says by its own name that it is missing. */
static const struct {
	const char *name;
	void (*call)(void);
} named[] = {
	{ "engine_line", line },
	{ "engine_look", look_at },
	{ "engine_has_group", has_group },
	{ "engine_children", children },
	{ "engine_groups", groups },
	{ "engine_history", history },
	{ "engine_current", current },
	{ "engine_limit", limit },
	{ "engine_begin", begin_several },
	{ "engine_finish", finish_several },
	{ "engine_forget", forget },
	{ "cgroup_namespaces_prepare", prepare },
	{ "cgroup_namespaces_made", made },
	{ "cgroup_namespaces_root", root_of },
	{ "control_read", read_control },
	{ "control_write", control },
	{ "freezer_born", frozen_born },
	{ "freezer_gone", frozen_gone },
	{ "freezer_moved", frozen_moved },
	{ "freezer_order", order },
	{ "freezer_told", frozen_told },
	{ "freezer_undone", freezer_undone },
	{ "get", find_table },
	{ "mount_tables_close", close_table },
	{ "mount_tables_ring", ring_table },
	{ "texts_read", read_text },
	{ "watch_above", above },
	{ "watch_below", below },
	{ "watch_forget", forget_watch },
	{ "watch_seen", seen },
};

static size_t wrong_names(void)
{
	char said[SAID], wanted[SAID];
	size_t wrong = 0;
	for (size_t i = 0; i < sizeof named / sizeof *named; i++) {
		snprintf(wanted, sizeof wanted, "makhloeum: %s is called without the engine's lock\n", named[i].name);
		if (ends_by(named[i].call, false, said) == SIGABRT && strcmp(said, wanted) == 0 &&
			ends_by(named[i].call, true, said) == 0)
			continue;
		printf("  %s FAILED: %s\n", named[i].name, said);
		wrong++;
	}
	return wrong;
}

int main(void)
{
	void (*const calls[])(void) = { line, look_at, take_text, where, has_group, children, groups, depth, history, find,
		make, lose, numbered, tidy, node_find, node_below, node_above, node_known, node_forget, begin, apply, set,
		touch, forget_owner, forget_attributes, seen, above, below, process, listed, visit_each, prepare, zombies_room,
		forget_watch, forget_seen, new_open, free_open, keep_text, goes_on, poll_open, lose_files, has, read_open,
		is_gone, wake, lose_open, control, handle, begin_several, finish_several, forget, room_for_operation,
		add_operation, newest_operation, count_operations, cut_operations, reserve, find_reserved, drop_reserved,
		count_reserved, count_reserved_below, kill_reserved, in_table, begin_process, add_thread, drop_thread,
		any_thread, next_thread, forget_values };
	static struct trace_file none = { .fd = -1 };
	char said[SAID];
	size_t wrong = 0, count = sizeof calls / sizeof *calls;
	if (!engine_start(&none, &none, true))
		return 1;
	for (size_t i = 0; i < count; i++)
		if (ends_by(calls[i], false, said) != SIGABRT || ends_by(calls[i], true, said) != 0) {
			printf("  call %zu FAILED: %s\n", i, said);
			wrong++;
		}
	wrong += wrong_names();
	printf("  %zu calls without the lock, %zu of them wrong\n", count + sizeof named / sizeof *named, wrong);
	engine_end();
	return wrong != 0;
}
