/* Parts of the mount that can be called alone: the texts of /proc (proc_status.c), reservations (reservations.c), what the supervisor
   tells (supervisor_events.c) and asks the server (link.c), what is allowed in advance (advance.c), descriptors that are passed
   (descriptor_passing.c), what ends with its block (cleanup.h), arrays (growing_array.c), paths (group_paths.c, beneath.c), and which
   commands are one operation (undo_steps.c). */
#include "channels/advance.h"
#include "channels/descriptor_passing.h"
#include "channels/questions.h"
#include "channels/supervisor_events.h"
#include "common/beneath.h"
#include "common/cleanup.h"
#include "common/group_paths.h"
#include "common/growing_array.h"
#include "common/proc_status.h"
#include "engine/undo_steps.h"
#include "processes/reservations.h"
#include "supervisor/link.h"
#include <errno.h>
#include <fcntl.h>
#include <stdio.h>
#include <stdlib.h>
#include <string.h>
#include <sys/socket.h>
#include <sys/stat.h>
#include <unistd.h>

static int steps, wrong;

static void is(const char *what, bool right)
{
	steps++;
	wrong += !right;
	if (!right)
		printf("  %-58s FAILED\n", what);
}

/* ---------------------------------------------------------------- the texts of a process */

enum { PROCESS = 7, LONG = 5000 };

/* A line that does not fit into one read comes before the others, and the last one has no end. */
static void put_texts(void)
{
	char home[256];
	snprintf(home, sizeof home, "%s/parts-XXXXXX", getenv("TMPDIR") ? getenv("TMPDIR") : "/tmp");
	if (!mkdtemp(home) || chdir(home) || mkdir("7", 0755))
		exit(2);
	FILE *status = fopen("7/status", "w"), *other = fopen("7/stat", "w");
	if (!status || !other)
		exit(2);
	fprintf(status, "Name:\tx\nGroups:\t%0*d\n", LONG, 5);
	fputs("One:\t7\nBlank:\t\nNothing:\nUid:\t11\t22\t33\nNSpid:\t4711\t8\nOne:\t9\nPart:\t6", status);
	fputs("7 (x) S 1", other);
	if (fclose(status) || fclose(other))
		exit(2);
}

static bool says(const char *key, const char *wanted)
{
	char value[LONG + 2] = "unset";
	bool found = proc_status_line(PROCESS, key, value, sizeof value);
	return wanted ? found && strcmp(value, wanted) == 0 : !found;
}

static void texts(void)
{
	char value[4];
	put_texts();
	is("the first line", says("Name:", "\tx"));
	is("a value of one digit, of the first line with this key", says("One:", "\t7"));
	is("a value that is a blank", says("Blank:", "\t"));
	is("an empty value", says("Nothing:", ""));
	is("several numbers", says("Uid:", "\t11\t22\t33"));
	is("the end of another key", says("id:", NULL));
	is("a key in a value", says("7", NULL));
	is("a key of nobody", says("Nobody:", NULL));
	is("a line without an end", says("Part:", NULL));
	is("a value that is cut", proc_status_line(PROCESS, "Uid:", value, sizeof value) && strcmp(value, "\t11") == 0);
	is("a process of nobody", !proc_status_line(PROCESS + 1, "Name:", value, sizeof value));
	is("the number of a line", proc_status_number(PROCESS, "One:") == 7);
	is("the last number of a line", proc_status_number(PROCESS, "NSpid:") == 8);
	is("a line of nobody has none", proc_status_number(PROCESS, "Nobody:") == -1);
	is("nor has an empty line", proc_status_number(PROCESS, "Nothing:") == -1);

	char text[16];
	is("a text", proc_status_text("7/stat", text, sizeof text) == 9 && strcmp(text, "7 (x) S 1") == 0);
	is("a text as long as there is room", proc_status_text("7/stat", text, 10) == 9 && strcmp(text, "7 (x) S 1") == 0);
	is("the beginning of a text", proc_status_text("7/stat", text, 5) == 4 && strcmp(text, "7 (x") == 0);
	is("no text", proc_status_text("8/stat", text, sizeof text) == -ENOENT && text[0] == 0);
	is("a directory", proc_status_text("7", text, sizeof text) == -EISDIR);
	if (unlink("7/stat") || unlink("7/status") || rmdir("7"))
		exit(2);
}

/* ---------------------------------------------------------------- reservations */

static void reservations(void)
{
	static const struct reservation like = { .parent = 5, .is_thread = true };
	static const char *const groups[] = { "/a", "/a/b", "/ab", "/a/b" };
	unsigned numbers[4];
	is("none at first", reservations_count() == 0 && reservations_below("/") == 0);
	for (int i = 0; i < 4; i++)
		is("one more", reservations_add(&like, groups[i], &numbers[i]) == 0);
	is("four", reservations_count() == 4);
	is("at and below a group",
		reservations_below("/a") == 3 && reservations_below("/a/b") == 2 && reservations_below("/") == 4);
	const struct reservation *second = reservations_find(numbers[1]);
	is("what it is for", second && second->parent == 5 && second->is_thread && strcmp(second->group, "/a/b") == 0);
	reservations_drop(numbers[1]);
	is("one is dropped",
		reservations_count() == 3 && reservations_below("/a/b") == 1 && !reservations_find(numbers[1]));
	reservations_drop(numbers[1]);
	reservations_drop(0);
	is("one that is not there", reservations_count() == 3);
	reservations_kill("/a/b");
	bool killed[4];
	for (int i = 0; i < 4; i++) {
		const struct reservation *r = reservations_find(numbers[i]);
		killed[i] = r && r->killed;
	}
	is("a kill reaches a group and those below it", !killed[0] && !killed[2] && killed[3]);
	for (int i = 0; i < 4; i++)
		reservations_drop(numbers[i]);
	is("none in the end", reservations_count() == 0 && reservations_below("/") == 0);
	enum { MANY = 70000 }; /* more than 16 bits count */
	unsigned kept = 0, next = 0;
	bool is_new = reservations_add(&like, "/", &kept) == 0;
	for (int i = 0; i < MANY && is_new; i++) {
		is_new = reservations_add(&like, "/", &next) == 0 && next != kept;
		reservations_drop(next);
	}
	is("the number of one that is kept is not used again", is_new);
	reservations_drop(kept);
}

/* ---------------------------------------------------------------- news */

static bool hears(unsigned reservation, pid_t thread)
{
	unsigned of = 0;
	pid_t who = 0;
	return supervisor_events_take(&of, &who) && of == reservation && who == thread;
}

/* There is room for some, and each is heard once and in order, also after the places were used before. */
static void news(void)
{
	unsigned of;
	pid_t who;
	is("memory for news", supervisor_events_begin());
	is("none yet", !supervisor_events_take(&of, &who));
	int told = 0, heard = 0, room = 0;
	while (told < 100000 && supervisor_events_put((unsigned)told, told + 1))
		told++;
	room = told;
	is("room for some, not for all", room > 1 && room < 100000);
	is("the first", hears(0, 1));
	for (heard = 1; told < 3 * room && supervisor_events_put((unsigned)told, told + 1); told++)
		if (!hears((unsigned)heard, heard + 1))
			break;
		else
			heard++;
	is("one place for each that was heard", told == 3 * room && heard == 2 * room + 1);
	while (heard < told && hears((unsigned)heard, heard + 1))
		heard++;
	is("all in order", heard == told);
	is("then none", !supervisor_events_take(&of, &who));
}

/* ---------------------------------------------------------------- questions */

static const unsigned late_number = 0x9abcdef1; /* after billions of others */
static int server; /* the test is the server: it replies before it is asked */
static struct question q;

static void replies_with(struct reply r)
{
	if (send(server, &r, sizeof r, 0) != sizeof r)
		exit(2);
}

static void replies(unsigned reservation)
{
	replies_with((struct reply){ .reservation = reservation });
}

static bool hears_question(enum what what)
{
	return recv(server, &q, sizeof q, MSG_DONTWAIT) > 0 && q.what == what;
}

/* Several wake the server together. While the server kills, whoever tells of a process's end waits for it. */
static void events(void)
{
	int told = 0;
	is("nobody waits", link_wake_late() == -1);
	link_thread_born(late_number, 8);
	link_thread_ended(8);
	link_exited(9);
	is("a thread and two ends", hears(late_number, 8) && hears(0, 8) && hears(0, 9));
	is("the server sleeps", !hears_question(EVENTS));
	while (link_wake_late() >= 0)
		usleep(1000);
	is("soon it is woken", hears_question(EVENTS));
	while (told < 100 && !hears_question(EVENTS))
		link_thread_ended(++told);
	is("more wake it", told > 1 && told < 100 && link_wake_late() == -1);
	supervisor_events_set_kills(true);
	replies(0);
	link_exited(9);
	is("an end while it kills", hears_question(CATCH_UP));
	supervisor_events_set_kills(false);
	for (int i = 0; i < told; i++)
		is("all in order", hears(0, i + 1));
	is("and the last", hears(0, 9));
}

/* Numbers that count on come whole. */
static void questions(void)
{
	int ends[2];
	unsigned number = 0;
	pid_t who = 0;
	bool frozen, stops;
	if (!link_make(ends))
		exit(2);
	alarm(60); /* what is wrong may have no end */
	server = ends[1];
	link_use(ends[0], getpid());
	replies(late_number);
	is("a reservation", link_reserve(5, "/a", true, &number) == 0 && number == late_number);
	is("who asks for it", hears_question(RESERVE) && q.reserve.parent == 5 && q.reserve.is_thread);
	is("its group", q.names_group && strcmp(q.group, "/a") == 0);
	replies(0);
	is("a child", link_born(late_number, 7, &frozen) == 0);
	is("its reservation", hears_question(BORN) && q.born.reservation == late_number && q.born.child == 7);
	replies(0);
	link_cancel(late_number);
	is("a reservation is taken back", hears_question(CANCEL) && q.cancel.reservation == late_number);
	replies(0);
	is("a namespace is prepared", link_prepare(late_number, 5, NULL) == 0);
	is("for this call", hears_question(PREPARE) && q.prepare.call == late_number && !q.names_group);
	replies(0);
	link_namespace(late_number - 1, late_number);
	is("it is made", hears_question(NAMESPACE) && q.made.space == late_number - 1 && q.made.call == late_number);
	replies_with((struct reply){ .fault = -ENOENT, .reservation = late_number });
	is("one that is refused", link_reserve(5, NULL, false, &number) == -ENOENT && number == 0);
	is("it names no group", hears_question(RESERVE) && !q.names_group && !q.reserve.is_thread);
	replies_with((struct reply){ .fault = -ESRCH, .is_frozen = true });
	is("a frozen child, and its fault", link_born(1, 7, &frozen) == -ESRCH && frozen && hears_question(BORN));
	replies_with((struct reply){ .fault = -ENOMEM });
	is("a namespace that is not prepared", link_prepare(1, 5, "/b") == -ENOMEM);
	is("it would begin there", hears_question(PREPARE) && q.prepare.process == 5 && strcmp(q.group, "/b") == 0);
	replies(0);
	link_stopped(7, true);
	is("a process rests", hears_question(STOPPED) && q.stopped.process == 7 && q.stopped.stopped);
	replies_with((struct reply){ .order = { 7, true } });
	is("an order", link_order(&who, &stops) && who == 7 && stops && hears_question(ORDER));
	replies_with((struct reply){ .order = { 0, true } });
	is("none", !link_order(&who, &stops) && hears_question(ORDER));
	events();
	close(server);
	is("without a server no child may be made",
		link_reserve(5, NULL, false, &number) == -EAGAIN && number == 0 && link_born(1, 7, &frozen) == -EAGAIN);
	is("and there is no order", link_prepare(1, 5, NULL) == -EAGAIN && !link_order(&who, &stops));
	for (int i = 0; i < 1000; i++)
		link_thread_ended(i + 1);
	alarm(0);
	close(ends[0]);
}

/* ---------------------------------------------------------------- in advance */

/* What is allowed for a child is no thread's, and the other way round, whatever number the process has. */
static void advance(void)
{
	bool apart = true, there = true;
	is("memory for what is allowed in advance", advance_begin());
	for (pid_t process = 1; process <= LONG; process++) {
		advance_give(process, false, 5);
		apart &= advance_take(process, true) == 0;
		there &= advance_take(process, false) == 5;
		advance_give(process, true, 6);
		apart &= advance_take(process, false) == 0;
		there &= advance_take(process, true) == 6;
	}
	is("a child's is no thread's", apart);
	is("each is there, once", there);
	advance_give(1, true, 7);
	is("one that nobody took is taken back", advance_take_any() == 7 && advance_take_any() == 0);
}

/* One child and some threads of each process. Whatever nobody has taken can be taken back, each once, also that of the last place. */
static void advance_of_many(void)
{
	enum { FIRST_ONE = 1000, MANY = 1024 };
	static int left[FIRST_ONE + MANY * 16];
	int given = 0, threads = 0, wrong_ones = 0, not_taken = 0;
	is("a child", advance_wants(5, false) && advance_give(5, false, 7) == 0);
	is("and not two", !advance_wants(5, false) && advance_give(5, false, 8) == 7);
	is("of another process", advance_wants(6, false) && advance_take(6, false) == 0);
	is("the newer one is there", advance_take(5, false) == 8 && advance_wants(5, false));
	while (threads < 16 && advance_wants(5, true))
		wrong_ones += advance_give(5, true, (unsigned)++threads) != 0;
	is("some threads", threads > 1 && threads < 16 && wrong_ones == 0);
	is("one more takes the place of one", advance_give(5, true, 99) == (unsigned)threads);
	is("one is taken", advance_take(5, true) == 1 && advance_wants(5, true));
	while (advance_take(5, true))
		threads--;
	is("then all", threads == 1);
	for (int round = 0; round < 2; round++) {
		for (pid_t process = 1; process <= MANY; process++)
			for (int kind = 0; kind < 2; kind++)
				if (advance_wants(process, kind)) {
					left[FIRST_ONE + given]++;
					left[advance_give(process, kind, (unsigned)(FIRST_ONE + given++))] = 0;
				}
		for (unsigned one = advance_take_any(); one; one = advance_take_any())
			left[one]--;
	}
	for (int i = FIRST_ONE; i < FIRST_ONE + given; i++)
		not_taken += left[i] != 0;
	is("all are taken back, twice", given == 4 * MANY && not_taken == 0);
}

/* ---------------------------------------------------------------- descriptors */

static int lowest_free(void)
{
	int fd = dup(0);
	close(fd);
	return fd;
}

/* A message with these numbers of bytes and descriptors is not what was expected, and leaves no descriptor open. */
static bool is_refused(const int ends[2], size_t bytes, size_t sent, size_t expected)
{
	char message[8] = "message", room[8];
	int two[2] = { 0, 0 }, came[DESCRIPTORS_MAX], before = lowest_free();
	bool is_sent = sent ? descriptor_passing_send(ends[1], message, bytes, two, sent)
						: send(ends[1], message, bytes, 0) == (ssize_t)bytes;
	return is_sent && !descriptor_passing_take(ends[0], room, sizeof room, came, expected, 0) &&
		lowest_free() == before;
}

static void descriptors(void)
{
	int ends[2], came[DESCRIPTORS_MAX] = { -1, -1 };
	char room[8] = "";
	struct stat st, own;
	if (socketpair(AF_UNIX, SOCK_SEQPACKET, 0, ends))
		exit(2);
	is("two are passed",
		descriptor_passing_send(ends[1], "message", 8, (int[]){ ends[0], 0 }, 2) &&
			descriptor_passing_take(ends[0], room, sizeof room, came, 2, 0) && strcmp(room, "message") == 0);
	is("in their order", fstat(came[0], &st) == 0 && fstat(ends[0], &own) == 0 && st.st_ino == own.st_ino);
	is("and are closed by an exec", fcntl(came[1], F_GETFD) == FD_CLOEXEC);
	close(came[0]);
	close(came[1]);
	is("a message without one", is_refused(ends, 8, 0, 1));
	is("one in place of two", is_refused(ends, 8, 1, 2));
	is("two in place of one", is_refused(ends, 8, 2, 1));
	is("a shorter message", is_refused(ends, 7, 1, 1));
	errno = 0;
	is("no message", !descriptor_passing_take(ends[0], room, sizeof room, came, 1, MSG_DONTWAIT) && errno == EAGAIN);
	close(ends[1]);
	is("nobody who sends", !descriptor_passing_take(ends[0], room, sizeof room, came, 1, 0));
	is("nobody who takes", !descriptor_passing_send(ends[0], "message", 8, came, 1));
	close(ends[0]);
}

/* ---------------------------------------------------------------- what ends with its block */

/* Each was closed before, so it cannot be closed at the end of its block: the errno of a failure stays. */
static bool errno_stays(int which)
{
	{
		cleanup_fd int fd = which == 0 ? dup(0) : -1;
		cleanup_stream FILE *stream = which == 1 ? fopen("/dev/null", "r") : NULL;
		cleanup_directory DIR *directory = which == 2 ? opendir("/") : NULL;
		close(which == 0 ? fd : which == 1 ? fileno(stream) : dirfd(directory));
		errno = ENOENT;
	}
	return errno == ENOENT;
}

static void cleanups(void)
{
	int kept, others[3];
	is("a descriptor", errno_stays(0));
	is("a stream", errno_stays(1));
	is("a directory", errno_stays(2));
	{
		cleanup_fd int fd = dup(0), other = dup(0);
		cleanup_stream FILE *stream = fopen("/dev/null", "r");
		cleanup_directory DIR *directory = opendir("/");
		if (!stream || !directory)
			exit(2);
		kept = steal_fd(&fd);
		memcpy(others, (int[]){ other, fileno(stream), dirfd(directory) }, sizeof others);
	}
	is("one is kept", fcntl(kept, F_GETFD) >= 0);
	for (int i = 0; i < 3; i++)
		is("the others are closed", fcntl(others[i], F_GETFD) < 0);
	close(kept);
}

/* ---------------------------------------------------------------- arrays */

static void arrays(void)
{
	size_t room = 0;
	int *all = NULL;
	bool is_there = true, has_room = true, stays = true;
	for (size_t count = 1; count <= LONG; count++) {
		int *grown = growing_array_make_room(all, count, &room, sizeof *all);
		is_there &= grown != NULL;
		has_room &= room >= count;
		if (!grown || room < count)
			break;
		all = grown;
		all[count - 1] = (int)count;
	}
	for (size_t i = 0; is_there && has_room && i < LONG; i++)
		stays &= all[i] == (int)i + 1;
	is("an array grows one by one", is_there && has_room);
	is("and keeps what it has", stays);
	free(all);
}

/* ---------------------------------------------------------------- paths */

static bool sees(const char *root, const char *group, const char *wanted)
{
	char out[PATH_MAX_SAID];
	seen_from(root, group, out);
	return strcmp(out, wanted) == 0;
}

static bool goes_up(const char *from, const char *wanted)
{
	char at[8];
	snprintf(at, sizeof at, "%s", from);
	go_up(at);
	return strcmp(at, wanted) == 0;
}

static void paths(void)
{
	is("from the root", sees("/", "/", "/") && sees("/", "/a/b", "/a/b"));
	is("from a group", sees("/a", "/a", "/") && sees("/a", "/a/b", "/b") && sees("/a/b", "/a/b/c/d", "/c/d"));
	is("above it", sees("/a", "/", "/..") && sees("/a/b", "/a", "/..") && sees("/a/b/c", "/a", "/../.."));
	is("beside it", sees("/a", "/b", "/../b") && sees("/a/b/c", "/a/d/c", "/../../d/c"));
	is("names that begin alike", sees("/a", "/ab", "/../ab") && sees("/ab/c", "/a/c", "/../../a/c"));
	is("above a group", goes_up("/a/b", "/a") && goes_up("/a", "/") && goes_up("/", "/"));
	/* The names above take more room than those of the root. */
	static char root[PATH_MAX_SAID], out[2 * PATH_MAX_SAID];
	for (size_t i = 0; i + 1 < sizeof root; i++)
		root[i] = i % 2 ? 'a' : '/';
	seen_from(root, "/b", out);
	size_t n = strlen(out);
	is("a path that does not fit", n + 2 == PATH_MAX_SAID && strcmp(out + n - 5, "/../b") == 0);
}

/* The errno of an open below a root. */
static int fault_of(int root, const char *path)
{
	errno = 0;
	cleanup_fd int fd = beneath_open(root, path, O_RDONLY);
	return errno;
}

static void beneath(void)
{
	cleanup_fd int top = open("/", O_PATH), here = open(".", O_PATH);
	struct mount_id one, other;
	if (mkdir("a", 0755) || mkdir("a/b", 0755) || symlink("b", "a/link") || symlink("/", "a/top"))
		exit(2);
	is("a directory", fault_of(here, "/a/b") == 0 && fault_of(here, "/") == 0 && fault_of(here, "/a/c") == ENOENT);
	is("no link", fault_of(here, "/a/link") == ELOOP && fault_of(here, "/a/top/proc") == ELOOP);
	is("nothing above", fault_of(here, "/..") == EXDEV && fault_of(here, "/a/../..") == EXDEV);
	is("no other mount", fault_of(top, "/proc") == EXDEV);
	cleanup_fd int fd = beneath_open(here, "/a", O_RDONLY), proc = open("/proc", O_PATH);
	is("it is closed by an exec", fcntl(fd, F_GETFD) == FD_CLOEXEC);
	is("one mount",
		beneath_identify(fd, &one) && beneath_identify(here, &other) && beneath_is_same_mount(&one, &other));
	is("another system", beneath_identify(proc, &other) && !beneath_is_same_system(&one, &other));
	other = one;
	other.mount++;
	is("another mount of it", beneath_is_same_system(&one, &other) && !beneath_is_same_mount(&one, &other));
	is("none", !beneath_identify(-1, &one) && errno == EBADF);
	if (unlink("a/link") || unlink("a/top") || rmdir("a/b") || rmdir("a"))
		exit(2);
}

/* ---------------------------------------------------------------- operations */

/* Many operations of two commands, with one of one command before and after each. */
static void operations(void)
{
	enum { MANY = 1000, COMMANDS = 3 };
	bool counts = true, begins = true;
	for (size_t i = 0; i < MANY && counts && begins; i++) {
		size_t from = COMMANDS * i + 1, to = from + 2;
		counts = undo_steps_make_room() == 0;
		undo_steps_add(from, to);
		begins = undo_steps_newest(to) == from && undo_steps_newest(to + 1) == to;
		counts &= undo_steps_count(to) == 2 * i + 2;
	}
	is("two commands count as one operation", counts);
	is("which begins with the first of them", begins);
	undo_steps_cut(COMMANDS * MANY / 2);
	is("half of them", undo_steps_count(COMMANDS * MANY / 2) == MANY);
	undo_steps_cut(0);
	is("none", undo_steps_count(0) == 0);
}

int main(void)
{
	texts();
	reservations();
	news();
	questions();
	advance();
	advance_of_many();
	descriptors();
	cleanups();
	arrays();
	paths();
	beneath();
	operations();
	printf("  %d steps, %d failed\n", steps, wrong);
	return wrong != 0;
}
