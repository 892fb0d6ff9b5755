package makhloeum

// #include "makhloeum.h"
import "C"

import (
	"context"
	"time"
)

// A wait looks at its context once in each such time.
const slice = 50 * time.Millisecond

// milliseconds is how long a call of C waits for the rest of the time: no part of a millisecond is left out.
func milliseconds(left time.Duration) uint32 {
	if left < 0 {
		return 0
	}
	return uint32((left + time.Millisecond - 1) / time.Millisecond)
}

// Changes returns how many calls have changed the hierarchy, undos included. The error is ErrClosed or ErrBusy.
func (h *Hierarchy) Changes() (uint64, error) {
	var changes C.uint64_t
	err := errorOf("changes", C.mk_changes(&h.handle, &changes))
	return uint64(changes), err
}

// Wait waits until Changes differs from seen, and returns it. The error is that of the context ctx, within 50 ms of its end, or
// ErrClosed when the hierarchy is closed. Each wait keeps a thread.
func (h *Hierarchy) Wait(ctx context.Context, seen uint64) (uint64, error) {
	for {
		var changes C.uint64_t
		left := slice
		if end, ok := ctx.Deadline(); ok && time.Until(end) < left {
			left = time.Until(end)
		}
		status := C.mk_wait(&h.handle, C.uint64_t(seen), C.uint32_t(milliseconds(left)), &changes)
		if status == C.MK_DONE {
			return uint64(changes), nil
		}
		if status != C.MK_TIMED_OUT {
			return 0, failure(command{text: "wait"}, uint32(status), 0, nil)
		}
		if err := ctx.Err(); err != nil {
			return 0, err
		}
	}
}
