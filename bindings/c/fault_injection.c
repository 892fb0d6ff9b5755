/* Faults that a test asks for: a call that fails, and a group that another process seems to remove.
 *
 * A fault waits at its engine until the path was named often enough. What a vanished group had is killed and removed by lines, so
 * it is recorded like any other command. */
#include "lines.h"
#include <stdlib.h>
#include <string.h>

struct fault {
	struct fault *next;
	uint64_t left; /* calls that name the path, up to the one that the fault hits */
	int32_t error; /* 0: the group vanishes */
	size_t len;
	char path[];
};

void faults_drop(struct slot *slot)
{
	while (slot->faults != NULL) {
		struct fault *fault = slot->faults;
		slot->faults = fault->next;
		free(fault);
	}
}

static uint32_t run(mk0_handle *engine, const struct line *line)
{
	char out[ANSWER_BYTES];
	mk0_info told = { 0 };
	return mk0_line(engine, 0, (const uint8_t *)line->text, line->len, (uint8_t *)out, sizeof out, &told);
}

/* each group comes before those below it, so the last is removed first */
static uint32_t remove_groups(mk0_handle *engine, const char *groups, size_t len)
{
	uint32_t status = MK_DONE;
	while (len > 0 && status != MK_OUT_OF_MEMORY) {
		for (len--; len > 0 && groups[len - 1] != 0;)
			len--;
		struct line line;
		begin_line(&line, "rmdir", groups + len);
		status = run(engine, &line);
	}
	return status;
}

static uint32_t vanish(mk0_handle *engine, const char *path)
{
	mk0_info told = { 0 };
	struct line line;
	begin_line(&line, "write", path);
	add(&line, "cgroup.kill");
	add(&line, "1");
	uint32_t status = run(engine, &line);
	if (status == MK_REFUSED)
		return MK_DONE; /* there is no such group */
	if (status != MK_DONE)
		return status;
	uint8_t none;
	size_t path_len = strlen(path);
	status = mk0_subtree(engine, (const uint8_t *)path, path_len, &none, 0, &told);
	if (status != MK_TOO_SMALL)
		return status;
	uint8_t *groups = malloc(told.needed);
	if (groups == NULL)
		return MK_OUT_OF_MEMORY;
	status = mk0_subtree(engine, (const uint8_t *)path, path_len, groups, told.needed, &told);
	if (status == MK_DONE)
		status = remove_groups(engine, (const char *)groups, told.len);
	free(groups);
	freezer_look(slot_of(engine));
	return status == MK_OUT_OF_MEMORY ? status : (uint32_t)MK_DONE;
}

static bool is_for(const struct fault *fault, const uint8_t *path, size_t len)
{
	return fault->len == len && memcmp(fault->path, path, len) == 0;
}

static uint32_t meet(mk0_handle *engine, const struct fault *fault, mk0_info *told)
{
	if (fault->error == 0)
		return vanish(engine, fault->path);
	*told = (mk0_info){ .code = (uint32_t)fault->error };
	return MK_FAILED;
}

uint32_t faults_before(mk0_handle *engine, const uint8_t *path, size_t len, mk0_info *told)
{
	uint32_t status = MK_DONE;
	bool occurred = false;
	for (struct fault **at = &slot_of(engine)->faults; *at != NULL;) {
		struct fault *fault = *at;
		if (!is_for(fault, path, len) || --fault->left > 0) {
			at = &fault->next;
			continue;
		}
		*at = fault->next;
		if (!occurred)
			status = meet(engine, fault, told);
		occurred = true;
		free(fault);
	}
	return status;
}

void faults_again(mk0_handle *engine, const uint8_t *path, size_t len)
{
	for (struct fault *fault = slot_of(engine)->faults; fault != NULL; fault = fault->next)
		if (is_for(fault, path, len))
			fault->left++;
}

/* ---- calls for tests */

static uint32_t add_fault(struct slot *slot, const char *path, uint64_t nth, int32_t error)
{
	size_t len = strlen(path);
	struct fault *fault = calloc(1, sizeof *fault + len + 1);
	if (fault == NULL)
		return MK_OUT_OF_MEMORY;
	fault->left = nth;
	fault->error = error;
	fault->len = len;
	memcpy(fault->path, path, len + 1);
	fault->next = slot->faults;
	slot->faults = fault;
	return MK_DONE;
}

/* a fault of the path counts before `code`, which is 0 or MK_VALUE */
static uint32_t add_plan(mk0_handle *engine, const char *path, uint64_t nth, int32_t error, uint32_t code,
	mk0_info *told)
{
	uint32_t found = mk0_has_group(engine, (const uint8_t *)path, strlen(path), told);
	if (found == MK_FAULT || found == MK_OUT_OF_MEMORY)
		return found;
	*told = (mk0_info){ .code = code };
	return code != 0 ? (uint32_t)MK_FAULT : add_fault(slot_of(engine), path, nth, error);
}

static uint32_t plan(mk_handle *h, const char *path, uint64_t nth, int32_t error, uint32_t code, mk_info *info)
{
	mk0_handle *engine;
	mk0_info told = { 0 };
	uint32_t status = enter(h, &engine);
	if (status == MK_DONE) {
		status = add_plan(engine, path, nth, error, code, &told);
		leave(engine);
	}
	return tell(info, status, &told);
}

PUBLIC uint32_t mk_fail(mk_handle *h, const char *path, uint64_t nth, int32_t error, mk_info *info)
{
	return plan(h, path, nth, error, nth > 0 && error > 0 ? 0 : MK_VALUE, info);
}

PUBLIC uint32_t mk_vanish(mk_handle *h, const char *path, uint64_t nth, mk_info *info)
{
	return plan(h, path, nth, 0, nth > 0 && strcmp(path, "/") != 0 ? 0 : MK_VALUE, info);
}

PUBLIC uint32_t mk_clear_faults(mk_handle *h, size_t *left)
{
	mk0_handle *engine;
	size_t count = 0;
	uint32_t status = enter(h, &engine);
	if (status == MK_DONE) {
		for (const struct fault *fault = slot_of(engine)->faults; fault != NULL; fault = fault->next)
			count++;
		faults_drop(slot_of(engine));
		leave(engine);
	}
	*left = count;
	return status;
}
