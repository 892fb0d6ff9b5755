/* The proved calls of crates/c_library, on which the public ones of makhloeum.h are built. Nothing outside bindings/c calls
   them: the built libraries don't export their names.

   No call starts a thread, takes a lock or waits, and two calls on one engine never overlap. Each one's contract is in
   crates/c_library/specs. */
#ifndef MAKHLOEUM_PROVED_H
#define MAKHLOEUM_PROVED_H

#include <stdbool.h>
#include <stddef.h>
#include <stdint.h>

/* An engine, or none: {0} is none. */
typedef struct {
	void *at;
	bool full;
} mk0_handle;

typedef struct {
	size_t len;
	size_t count;
	size_t needed;
	uint32_t code;
} mk0_info;

uint32_t mk0_open(mk0_handle *h);
uint32_t mk0_close(mk0_handle *h);
uint32_t mk0_line(mk0_handle *h, uint64_t number, const uint8_t *line, size_t line_len, uint8_t *out, size_t out_size,
	mk0_info *info);
uint32_t mk0_undo(mk0_handle *h, uint64_t number, uint8_t *out, size_t out_size, mk0_info *info);
uint32_t mk0_depth(mk0_handle *h, size_t *depth);
uint32_t mk0_forget(mk0_handle *h);
uint32_t mk0_copy(mk0_handle *h, mk0_handle *to);
uint32_t mk0_children(mk0_handle *h, const uint8_t *path, size_t path_len, uint8_t *out, size_t out_size,
	mk0_info *info);
uint32_t mk0_groups(mk0_handle *h, uint8_t *out, size_t out_size, mk0_info *info);
uint32_t mk0_subtree(mk0_handle *h, const uint8_t *path, size_t path_len, uint8_t *out, size_t out_size,
	mk0_info *info);
uint32_t mk0_history(mk0_handle *h, size_t from, uint8_t *out, size_t out_size, mk0_info *info);
uint32_t mk0_has_group(mk0_handle *h, const uint8_t *path, size_t path_len, mk0_info *info);
uint32_t mk0_current(mk0_handle *h, const uint8_t *path, size_t path_len, uint64_t *value, mk0_info *info);
uint32_t mk0_populated(mk0_handle *h, const uint8_t *path, size_t path_len, uint64_t *value, mk0_info *info);
uint32_t mk0_peak(mk0_handle *h, const uint8_t *path, size_t path_len, uint64_t *value, mk0_info *info);
uint32_t mk0_limit(mk0_handle *h, const uint8_t *path, size_t path_len, uint64_t *value, mk0_info *info);
uint32_t mk0_path_fault(const uint8_t *path, size_t path_len, size_t *at);

#endif
