/* The public calls over the proved ones: a lock around each engine.
 *
 * - A slot is an engine with its lock. A handle has the slot's address and the serial number of the call that filled it.
 *   A slot whose serial number is another one is not this handle's engine: it was closed, and may have been opened again.
 * - Slots are reused and never freed, so a call that waits for the lock of an engine that another thread closes finds the
 *   lock still there, sees another serial number, and returns MK_CLOSED.
 * - `inside` says that this thread is in a call. An error-checking mutex can't say so reliably: it learns its owner after it
 *   is locked, and forgets it before it is unlocked, and a signal handler that runs in between would wait for ever.
 * - A fork locks all slots. An error-checking mutex could not be unlocked in the child, whose thread has another id.
 */
#include "makhloeum.h"
#include "lines.h"
#include "private.h"
#include <signal.h>
#include <stdatomic.h>
#include <stdlib.h>
#include <time.h>

/* Guards the variables after it. It is taken before the lock of a slot, never after it. */
static pthread_mutex_t registry = PTHREAD_MUTEX_INITIALIZER;
static struct slot *slots;
static struct slot *free_slots;
static uint64_t last_serial;

static bool watch_forks(void);

/* One for each thread. A handler may look at any moment, so no access may move across a lock: see begin and end. */
static __thread volatile sig_atomic_t inside __attribute__((tls_model("initial-exec")));
static __thread volatile sig_atomic_t skipped_forks __attribute__((tls_model("initial-exec")));

static void begin(void)
{
	inside = 1;
	atomic_signal_fence(memory_order_seq_cst);
}

static void end(void)
{
	atomic_signal_fence(memory_order_seq_cst);
	inside = 0;
}

/* In the serial number of a handle: its calls don't wait for those of other threads. */
#define NONBLOCKING (UINT64_C(1) << 63)

/* Whether the slot has the engine of the handle. Without the lock it may be closed at any time; a closed one never comes back. */
static bool has_engine_of(const struct slot *slot, const mk_handle *h)
{
	uint64_t serial = __atomic_load_n(&slot->serial, __ATOMIC_RELAXED);
	return serial == (__atomic_load_n(&h->serial, __ATOMIC_RELAXED) & ~NONBLOCKING);
}

/* MK_DONE with the slot of an open handle and its lock; MK_CLOSED, or MK_WOULD_BLOCK. It waits for no call on the engine that has the
   slot of a closed one. */
static uint32_t lock_open(const mk_handle *h, struct slot **locked)
{
	struct slot *slot = __atomic_load_n(&h->slot, __ATOMIC_ACQUIRE);
	if (slot == NULL || !has_engine_of(slot, h))
		return MK_CLOSED;
	if ((__atomic_load_n(&h->serial, __ATOMIC_RELAXED) & NONBLOCKING) == 0)
		pthread_mutex_lock(&slot->lock);
	else if (pthread_mutex_trylock(&slot->lock) != 0)
		return MK_WOULD_BLOCK;
	*locked = slot;
	if (has_engine_of(slot, h))
		return MK_DONE;
	pthread_mutex_unlock(&slot->lock);
	return MK_CLOSED;
}

uint32_t enter(const mk_handle *h, mk0_handle **engine)
{
	if (inside)
		return MK_BUSY;
	begin();
	struct slot *slot;
	uint32_t status = lock_open(h, &slot);
	if (status == MK_DONE)
		*engine = &slot->engine;
	else
		end();
	return status;
}

/* Each command that changes the hierarchy is recorded, and each undo takes a record away. */
static void look_for_a_change(struct slot *slot)
{
	size_t depth;
	mk0_depth(&slot->engine, &depth);
	if (depth == slot->depth)
		return;
	slot->depth = depth;
	freezer_look(slot);
	slot->changes++;
	pthread_cond_broadcast(&slot->changed);
}

void leave_closed(struct slot *slot)
{
	pthread_mutex_unlock(&slot->lock);
	end();
}

void leave(mk0_handle *engine)
{
	look_for_a_change(slot_of(engine));
	leave_closed(slot_of(engine));
}

uint32_t tell(mk_info *info, uint32_t status, const mk0_info *told)
{
	*info = (mk_info){ .len = told->len,
		.count = told->count,
		.needed = told->needed,
		.code = told->code,
		.error = mk_status_errno(status, told->code) };
	if (status == MK_FAILED) {
		info->error = (int32_t)told->code;
		info->code = 0;
	}
	return status;
}

/* ---- opening and closing */

/* with the registry locked; an engine in which another thread's call is running is open too */
static bool is_open(const mk_handle *h)
{
	struct slot *slot;
	uint32_t status = lock_open(h, &slot);
	if (status == MK_DONE)
		pthread_mutex_unlock(&slot->lock);
	return status != MK_CLOSED;
}

static bool init_condition(pthread_cond_t *condition)
{
	pthread_condattr_t clock;
	if (pthread_condattr_init(&clock) != 0)
		return false;
	bool done = pthread_condattr_setclock(&clock, CLOCK_MONOTONIC) == 0 && pthread_cond_init(condition, &clock) == 0;
	pthread_condattr_destroy(&clock);
	return done;
}

static bool init_slot(struct slot *slot)
{
	if (pthread_mutex_init(&slot->lock, NULL) != 0)
		return false;
	if (init_condition(&slot->changed))
		return true;
	pthread_mutex_destroy(&slot->lock);
	return false;
}

/* with the registry locked: a slot that no handle has */
static struct slot *take_slot(void)
{
	struct slot *slot = free_slots;
	if (slot != NULL) {
		free_slots = slot->next_free;
		return slot;
	}
	slot = calloc(1, sizeof *slot);
	if (slot == NULL)
		return NULL;
	if (!init_slot(slot)) {
		free(slot);
		return NULL;
	}
	slot->next = slots;
	slots = slot;
	return slot;
}

static void give_slot(struct slot *slot)
{
	slot->next_free = free_slots;
	free_slots = slot;
}

static uint32_t copy_engine(const mk_handle *from, mk0_handle *to)
{
	struct slot *slot;
	uint32_t status = lock_open(from, &slot);
	if (status != MK_DONE)
		return status;
	status = mk0_copy(&slot->engine, to);
	pthread_mutex_unlock(&slot->lock);
	return status;
}

/* with the registry locked: a new engine, or a copy of that of `from`. No other thread knows the slot yet, so two locks of
   slots are never held together, and threads that copy in opposite directions can't wait for each other. */
static uint32_t fill(mk_handle *h, const mk_handle *from)
{
	struct slot *slot = watch_forks() ? take_slot() : NULL;
	if (slot == NULL)
		return MK_OUT_OF_MEMORY;
	uint32_t status = from == NULL ? mk0_open(&slot->engine) : copy_engine(from, &slot->engine);
	if (status != MK_DONE) {
		give_slot(slot);
		return status;
	}
	uint64_t serial = ++last_serial;
	pthread_mutex_lock(&slot->lock);
	__atomic_store_n(&slot->serial, serial, __ATOMIC_RELAXED);
	slot->changes = 0;
	mk0_depth(&slot->engine, &slot->depth);
	pthread_mutex_unlock(&slot->lock);
	/* who reads the new slot with the old serial number, or the reverse, finds it closed */
	__atomic_store_n(&h->serial, serial, __ATOMIC_RELAXED);
	__atomic_store_n(&h->slot, (void *)slot, __ATOMIC_RELEASE);
	return MK_DONE;
}

static uint32_t open_or_copy(mk_handle *h, const mk_handle *from)
{
	if (inside)
		return MK_BUSY;
	begin();
	pthread_mutex_lock(&registry);
	uint32_t status = is_open(h) ? (uint32_t)MK_CLOSED : fill(h, from);
	pthread_mutex_unlock(&registry);
	end();
	return status;
}

PUBLIC uint32_t mk_open(mk_handle *h)
{
	return open_or_copy(h, NULL);
}

PUBLIC uint32_t mk_copy(mk_handle *from, mk_handle *to)
{
	return open_or_copy(to, from);
}

PUBLIC void mk_nonblocking(const mk_handle *from, mk_handle *to)
{
	void *slot = __atomic_load_n(&from->slot, __ATOMIC_ACQUIRE);
	uint64_t serial = __atomic_load_n(&from->serial, __ATOMIC_RELAXED);
	*to = (mk_handle){ .slot = slot, .serial = serial | NONBLOCKING };
}

PUBLIC uint32_t mk_close(mk_handle *h)
{
	mk0_handle *engine;
	uint32_t status = enter(h, &engine);
	if (status != MK_DONE)
		return status;
	struct slot *slot = slot_of(engine);
	status = mk0_close(engine);
	__atomic_store_n(&slot->serial, UINT64_C(0), __ATOMIC_RELAXED);
	faults_drop(slot);
	freezer_drop(slot);
	pthread_cond_broadcast(&slot->changed);
	pthread_mutex_unlock(&slot->lock);
	pthread_mutex_lock(&registry);
	give_slot(slot);
	pthread_mutex_unlock(&registry);
	end();
	return status;
}

/* ---- forks */

static void before_fork(void)
{
	if (inside) {
		skipped_forks++;
		return;
	}
	begin();
	pthread_mutex_lock(&registry);
	for (struct slot *slot = slots; slot != NULL; slot = slot->next)
		pthread_mutex_lock(&slot->lock);
}

static void unlock_all(bool in_child)
{
	if (skipped_forks > 0) {
		skipped_forks--;
		return;
	}
	for (struct slot *slot = slots; slot != NULL; slot = slot->next) {
		/* threads that waited are not in the child, and a condition that counts them would wait for them */
		if (in_child)
			init_condition(&slot->changed);
		pthread_mutex_unlock(&slot->lock);
	}
	pthread_mutex_unlock(&registry);
	end();
}

static void after_fork(void)
{
	unlock_all(false);
}

static void after_fork_in_child(void)
{
	unlock_all(true);
}

/* with the registry locked: whether the handlers are there, now if not before */
static bool watch_forks(void)
{
	static bool watched;
	if (!watched)
		watched = pthread_atfork(before_fork, after_fork, after_fork_in_child) == 0;
	return watched;
}

/* Before the handlers of others, if possible: then these may make calls. Constructors of the program may run before this one, and open a
   hierarchy. */
__attribute__((constructor)) static void watch_forks_early(void)
{
	pthread_mutex_lock(&registry);
	watch_forks();
	pthread_mutex_unlock(&registry);
}

/* ---- calls */

PUBLIC uint32_t mk_line(mk_handle *h, uint64_t number, const uint8_t *line, size_t line_len, uint8_t *out,
	size_t out_size, mk_info *info)
{
	mk0_handle *engine;
	mk0_info told = { 0 };
	uint32_t status = enter(h, &engine);
	if (status == MK_DONE) {
		status = answer_line(engine, number, line, line_len, (struct buffer){ (char *)out, out_size }, &told);
		leave(engine);
	}
	return tell(info, status, &told);
}

PUBLIC uint32_t mk_undo(mk_handle *h, uint64_t number, uint8_t *out, size_t out_size, mk_info *info)
{
	mk0_handle *engine;
	mk0_info told = { 0 };
	uint32_t status = enter(h, &engine);
	if (status == MK_DONE) {
		status = freezer_catch_up(slot_of(engine));
		if (status == MK_DONE)
			status = mk0_undo(engine, number, out, out_size, &told);
		leave(engine);
	}
	return tell(info, status, &told);
}

PUBLIC uint32_t mk_depth(mk_handle *h, size_t *depth)
{
	mk0_handle *engine;
	size_t found = 0;
	uint32_t status = enter(h, &engine);
	if (status == MK_DONE) {
		status = mk0_depth(engine, &found);
		leave(engine);
	}
	*depth = found;
	return status;
}

PUBLIC uint32_t mk_forget(mk_handle *h)
{
	mk0_handle *engine;
	uint32_t status = enter(h, &engine);
	if (status == MK_DONE) {
		status = mk0_forget(engine);
		/* it changes no group, process or count */
		mk0_depth(engine, &slot_of(engine)->depth);
		leave(engine);
	}
	return status;
}

PUBLIC uint32_t mk_history(mk_handle *h, size_t from, uint8_t *out, size_t out_size, mk_info *info)
{
	mk0_handle *engine;
	mk0_info told = { 0 };
	uint32_t status = enter(h, &engine);
	if (status == MK_DONE) {
		status = mk0_history(engine, from, out, out_size, &told);
		leave(engine);
	}
	return tell(info, status, &told);
}

PUBLIC uint32_t mk_groups(mk_handle *h, uint8_t *out, size_t out_size, mk_info *info)
{
	mk0_handle *engine;
	mk0_info told = { 0 };
	uint32_t status = enter(h, &engine);
	if (status == MK_DONE) {
		status = mk0_groups(engine, out, out_size, &told);
		leave(engine);
	}
	return tell(info, status, &told);
}

typedef uint32_t listing_at_call(mk0_handle *h, const uint8_t *path, size_t path_len, uint8_t *out, size_t out_size,
	mk0_info *info);

static uint32_t list_at(mk_handle *h, listing_at_call *call, const uint8_t *path, size_t path_len, struct buffer out,
	mk_info *info)
{
	mk0_handle *engine;
	mk0_info told = { 0 };
	uint32_t status = enter(h, &engine);
	if (status == MK_DONE) {
		status = faults_before(engine, path, path_len, &told);
		if (status == MK_DONE)
			status = call(engine, path, path_len, (uint8_t *)out.at, out.size, &told);
		if (status == MK_TOO_SMALL)
			faults_again(engine, path, path_len);
		leave(engine);
	}
	return tell(info, status, &told);
}

PUBLIC uint32_t mk_children(mk_handle *h, const uint8_t *path, size_t path_len, uint8_t *out, size_t out_size,
	mk_info *info)
{
	return list_at(h, mk0_children, path, path_len, (struct buffer){ (char *)out, out_size }, info);
}

PUBLIC uint32_t mk_subtree(mk_handle *h, const uint8_t *path, size_t path_len, uint8_t *out, size_t out_size,
	mk_info *info)
{
	return list_at(h, mk0_subtree, path, path_len, (struct buffer){ (char *)out, out_size }, info);
}

PUBLIC uint32_t mk_has_group(mk_handle *h, const uint8_t *path, size_t path_len, mk_info *info)
{
	mk0_handle *engine;
	mk0_info told = { 0 };
	uint32_t status = enter(h, &engine);
	if (status == MK_DONE) {
		status = faults_before(engine, path, path_len, &told);
		if (status == MK_DONE)
			status = mk0_has_group(engine, path, path_len, &told);
		leave(engine);
	}
	return tell(info, status, &told);
}
