/* The engine alone: what it answers without a line, an operation of several lines in a long trace, the warning about such a trace,
   files that take no more, and what is left of it after its end. */
#include "engine/engine.h"
#include "common/bounds.h"
#include <dlfcn.h>
#include <errno.h>
#include <fcntl.h>
#include <malloc.h>
#include <pthread.h>
#include <signal.h>
#include <stdio.h>
#include <stdlib.h>
#include <string.h>
#include <sys/ioctl.h>
#include <sys/stat.h>
#include <unistd.h>

static int steps, wrong;

static void is(const char *what, bool right)
{
	steps++;
	wrong += !right;
	if (!right)
		printf("  %-58s FAILED\n", what);
}

static char names[2][256];
static struct trace_file trace, answers;

static void open_files(void)
{
	const char *home = getenv("TMPDIR");
	for (int i = 0; i < 2; i++)
		snprintf(names[i], sizeof names[i], "%s/%s", home ? home : "/tmp", i ? "answers" : "trace");
	if (!trace_file_open(&trace, names[0]) || !trace_file_open(&answers, names[1]))
		exit(2);
}

static bool is_whole(const struct trace_file *file)
{
	struct stat st;
	return fstat(file->fd, &st) == 0 && st.st_size == file->size;
}

/* ---------------------------------------------------------------- without a line */

/* A loss of any buffer is more than SPARE bytes: what the C library keeps for itself is less. */
enum { MANY = 200, LONG = 240, PROCESSES = 9000, SPARE = 16384 };

static void queries(void)
{
	const char *found;
	char group[16];
	size_t size, count;
	uint64_t number;
	const off_t kept = trace.size;
	is("a look has a text", engine_look("cat / cgroup.procs") == 0 && engine_text(&size) && size == 2);
	is("a refused line has none", engine_look("cat /none cgroup.procs") == -ENOENT && engine_text(&size) && size == 0);
	is("nor has a wrong one", engine_look("cat x cgroup.procs") == -EINVAL && engine_text(&size) && size == 0);
	is("a process", engine_where(1, group, sizeof group) == 0 && strcmp(group, "/") == 0);
	is("one that is not there", engine_where(7, group, sizeof group) == -ESRCH);
	is("a number of none", engine_where(PIDS, group, sizeof group) == -ESRCH);
	is("no group", engine_has_group("/none") == -ENOENT && engine_children("/none", &found, &count) == -ENOENT);
	is("no path", engine_has_group("x") == -ENOENT && engine_groups("x", &found, &count) == -ENOENT);
	is("its numbers", engine_current("/none", &number) == -ENOENT && engine_limit("x", &number) == -ENOENT);
	is("nothing of it is kept", trace.size == kept);
	bool are_made = true;
	const size_t before = engine_depth();
	for (int i = 2; i <= PROCESSES; i++)
		are_made &= engine_line("fork 1 %d", i) == 0;
	is("each can be undone", engine_depth() == before + PROCESSES - 1);
	is("many processes", are_made && engine_look("cat / cgroup.procs") == 0);
	is("all are in the text", strtol(engine_text(&size) + size - 5, NULL, 10) == PROCESSES && size > 4 * PROCESSES);
	is("a group", engine_line("mkdir /q") == 0);
	const size_t depth = engine_depth();
	for (int i = 0; i < MANY; i++)
		are_made &= engine_line("mkdir /q/%0*d", LONG, i) == 0;
	is("many groups", are_made);
	is("their names", engine_children("/q", &found, &count) == 0 && count == MANY && strlen(found) == LONG);
	is("their paths", engine_groups("/q", &found, &count) == 0 && count == MANY + 1 && strcmp(found, "/q") == 0);
	is("their lines", engine_history(depth, &found, &size) == 0 && size == MANY * (sizeof "mkdir /q/" + LONG));
	is("the last one", engine_history(depth + MANY - 1, &found, &size) == 0 && size == sizeof "mkdir /q/" + LONG);
}

/* ---------------------------------------------------------------- a long trace */

/* What a failed operation has kept goes, also behind the bytes that 32 bits count. */
static void operations(void)
{
	const off_t before = 5LL << 30;
	if (ftruncate(trace.fd, before))
		exit(2);
	trace.size = before;
	is("a group, alone", engine_begin() == 0 && engine_line("mkdir /a") == 0 && engine_finish(0) == 0);
	size_t depth = engine_depth();
	const off_t kept = trace.size, answered = answers.size;
	is("an operation that fails",
		engine_begin() == 0 && engine_line("mkdir /b") == 0 && engine_finish(-EAGAIN) == -EAGAIN);
	is("it is undone", engine_depth() == depth && engine_has_group("/b") == -ENOENT && engine_has_group("/a") == 0);
	is("and its lines are gone", trace.size == kept && is_whole(&trace));
	is("with their answers", answers.size == answered && is_whole(&answers));
	is("a wrong line is kept too", engine_line("mkdir b") == -EINVAL && trace.size > kept && answers.size > answered);
	trace_file_take_back(&trace, kept);
	trace_file_take_back(&answers, answered);
	is("one that changes nothing",
		engine_begin() == 0 && engine_line("mkdir /a") == -EEXIST && engine_finish(-EEXIST) == -EEXIST);
	is("keeps its line, as any refused one", trace.size > kept && answers.size > answered && engine_depth() == depth);
	is("the next line is kept", engine_line("mkdir /b") == 0 && is_whole(&trace) && engine_depth() == depth + 1);
}

/* ---------------------------------------------------------------- the warning */

static int said[2]; /* a pipe, which is standard error */
static char filler[1 << 16];
static pid_t first;

static bool sleeps(pid_t thread)
{
	char path[64], text[256] = "";
	snprintf(path, sizeof path, "/proc/self/task/%d/stat", thread);
	FILE *from = fopen(path, "r");
	size_t n = from ? fread(text, 1, sizeof text - 1, from) : 0;
	if (from)
		fclose(from);
	text[n] = 0;
	const char *end = strrchr(text, ')');
	return end && end[1] && end[2] == 'S';
}

/* Nobody reads until the first thread waits. */
static void *read_late(void *unused)
{
	while (!sleeps(first))
		usleep(1000);
	for (size_t left = sizeof filler; left > 0;) {
		ssize_t n = read(said[0], filler, left);
		left -= n > 0 ? (size_t)n : left;
	}
	return unused;
}

static bool has_no_thread;

/* In place of the C library's. */
int pthread_create(pthread_t *out, const pthread_attr_t *how, void *(*call)(void *), void *with)
{
	static int (*next)(pthread_t *, const pthread_attr_t *, void *(*)(void *), void *);
	*(void **)&next = dlsym(RTLD_NEXT, "pthread_create");
	return has_no_thread ? EAGAIN : next(out, how, call, with);
}

/* A trace is too long for cgreplay with one byte more than that reads. Where there is no thread that says it, a later line tries again. */
static void warning(void)
{
	is("a line", engine_line("mkdir /w") == 0);
	const off_t line = trace.size; /* with the comment before it */
	trace.size = TRACE_BYTES - line;
	is("a trace that is as long as it may be", engine_line("mkdir /x") == 0 && trace.size == TRACE_BYTES);
	is("of it nothing is said", !trace.was_told);
	trace.size = TRACE_BYTES - line + 1;
	has_no_thread = true;
	is("one more byte, and no thread", engine_line("mkdir /v") == 0 && !trace.was_told);
	has_no_thread = false;
	is("one more line", engine_line("mkdir /y") == 0 && trace.was_told);
	is("more lines", engine_line("mkdir /z") == 0 && is_whole(&trace));
}

/* ---------------------------------------------------------------- files that take no more */

static const char wide[1 << 14];
static volatile sig_atomic_t interrupted;
static pthread_t writer;
static int room[2]; /* a pipe */

static void on_signal(int unused)
{
	(void)unused;
	interrupted++;
}

/* What was opened as this file is another one from now on. */
static void replace(const struct trace_file *file, int by)
{
	if (by < 0 || dup2(by, file->fd) != file->fd)
		exit(2);
}

/* How many bytes were in the pipe. */
static size_t empty(void)
{
	char bytes[4096];
	size_t size = 0;
	for (ssize_t n; (n = read(room[0], bytes, sizeof bytes)) > 0;)
		size += (size_t)n;
	return size;
}

static void fill(void)
{
	while (write(room[1], wide, 1) == 1)
		;
}

static void set_patient(bool waits)
{
	if (fcntl(room[1], F_SETFL, waits ? 0 : O_NONBLOCK))
		exit(2);
}

/* The first thread waits in a write, which a signal interrupts, and waits again. */
static void *interrupt(void *unused)
{
	while (!sleeps(first))
		usleep(1000);
	pthread_kill(writer, SIGUSR1);
	while (!interrupted || !sleeps(first))
		usleep(1000);
	empty();
	return unused;
}

static bool takes_nothing;

/* In place of the C library's. */
ssize_t write(int fd, const void *bytes, size_t size)
{
	static ssize_t (*next)(int, const void *, size_t);
	*(void **)&next = dlsym(RTLD_NEXT, "write");
	return takes_nothing ? 0 : next(fd, bytes, size);
}

/* A device of which the test decides what it takes: it is opened as one, and replaced by a pipe. */
static void devices(void)
{
	struct trace_file file;
	struct sigaction handler = { .sa_handler = on_signal };
	pthread_t other;
	writer = pthread_self();
	is("a device", trace_file_open(&file, "/dev/null") && trace_file_begin(&file));
	if (pipe2(room, O_NONBLOCK) || fcntl(room[1], F_SETPIPE_SZ, (int)sizeof wide / 2) < 0)
		exit(2);
	replace(&file, room[1]);
	fill();
	is("one that takes nothing", trace_file_add(&file, "x\n", 2) == -EAGAIN && file.size == 0);
	empty();
	takes_nothing = true;
	errno = ENOENT;
	is("nor says why", trace_file_add(&file, "x\n", 2) == -EIO && file.size == 0);
	takes_nothing = false;
	is("takes a text once it has room", trace_file_add(&file, "x\n", 2) == 0 && file.size == 2 && empty() == 2);
	trace_file_take_back(&file, 0);
	is("of which the size alone is taken back", file.size == 0);
	fill();
	set_patient(true);
	if (sigaction(SIGUSR1, &handler, NULL) || pthread_create(&other, NULL, interrupt, NULL))
		exit(2);
	is("a signal that interrupts a text", trace_file_add(&file, "x\n", 2) == 0 && interrupted == 1);
	pthread_join(other, NULL);
	set_patient(false);
	empty();
	is("one that takes a part", trace_file_add(&file, wide, sizeof wide) == -EAGAIN && empty() == sizeof wide / 2);
	is("gets no more", trace_file_add(&file, "x\n", 2) == -EAGAIN && empty() == 0);
	trace_file_close(&file);
	close(room[0]);
	close(room[1]);
}

/* What a full device has left of a text, and could not be cut off at once, goes at the end. */
static void rest(void)
{
	struct trace_file file;
	struct stat st;
	char name[256];
	snprintf(name, sizeof name, "%.240s.rest", names[0]);
	is("a file", trace_file_open(&file, name) && trace_file_add(&file, "line\n", 5) == 0);
	is("which no program inherits", fcntl(file.fd, F_GETFD) == FD_CLOEXEC);
	int own = dup(file.fd), other = open(name, O_RDONLY);
	replace(&file, other);
	is("a text that it does not take", trace_file_add(&file, "half\n", 5) == -EBADF && file.size == 5);
	if (pwrite(own, "half", 4, 5) != 4)
		exit(2);
	replace(&file, own);
	close(own);
	close(other);
	trace_file_close(&file);
	is("nothing is left of it", stat(name, &st) == 0 && st.st_size == 5);
	unlink(name);
}

/* The end waits until the sentence is said. */
static void end(void)
{
	pthread_t reader;
	char wanted[1024];
	int has = 0;
	int size = snprintf(wanted, sizeof wanted,
		"makhloeum: %s is longer than 16,777,216 bytes, which cgreplay refuses: replay it by cgshell < %s\n", names[0],
		names[0]);
	if (pthread_create(&reader, NULL, read_late, NULL))
		exit(2);
	engine_end();
	is("somebody reads, and the sentence is there, once", ioctl(said[0], FIONREAD, &has) == 0 && has == size);
	pthread_join(reader, NULL);
}

static int descriptors(void)
{
	int count = 0;
	for (int fd = 0; fd < 64; fd++)
		count += fcntl(fd, F_GETFD) >= 0;
	return count;
}

static size_t allocated(void)
{
	struct mallinfo2 all = mallinfo2();
	return all.uordblks + all.hblkhd;
}

int main(int argc, char **argv)
{
	/* without the C library's lists of freed memory, which count as allocated */
	if (argc == 1 && setenv("GLIBC_TUNABLES", "glibc.malloc.tcache_count=0:glibc.malloc.arena_max=1", 1) == 0)
		execv("/proc/self/exe", (char *[]){ argv[0], (char *)"again", NULL });
	first = getpid();
	if (pipe(said) || fcntl(said[1], F_SETPIPE_SZ, sizeof filler) != sizeof filler || dup2(said[1], 2) != 2 ||
		write(said[1], filler, sizeof filler) != sizeof filler)
		return 2;
	const int open = descriptors();
	const size_t bytes = allocated();
	open_files();
	is("an engine", engine_start(&trace, &answers, true));
	engine_lock();
	warning();
	operations();
	queries();
	engine_unlock();
	devices();
	rest();
	end();
	is("it keeps no descriptor", descriptors() == open);
	is("nor any memory", allocated() < bytes + SPARE);
	unlink(names[0]);
	unlink(names[1]);
	printf("  %d steps, %d failed\n", steps, wrong);
	return wrong != 0;
}
