package makhloeum

// #include "makhloeum.h"
import "C"

import (
	"fmt"
	"math"
	"syscall"
)

// Fail makes the nth call from now on that names the path fail with the errno; it changes nothing. nth is 1 for the next. It is
// for tests of programs that use a hierarchy. It is refused with BadPath, and with BadValue if nth or errno is 0; an errno beyond 31
// bits is syscall.EINVAL. While there are faults, each call with a path takes time for each of them.
func (h *Hierarchy) Fail(path string, nth uint64, errno syscall.Errno) error {
	if errno > math.MaxInt32 {
		if err := h.closed("fail " + path); err != nil {
			return err
		}
		return fmt.Errorf("fail %s: %d is not an errno: %w", path, uint64(errno), syscall.EINVAL)
	}
	return h.callWithPath("fail", path, func(text *C.char, info *C.mk_info) C.uint32_t {
		return C.mk_fail(&h.handle, text, C.uint64_t(nth), C.int32_t(errno), info)
	})
}

// Vanish lets the group path vanish just before the nth call from now on that names it, as if another process had killed and removed
// it with all groups below it: after Vanish("/a", 1), Children("/") lists it and Read("/a", ..) is refused with NoGroup. nth is 1
// for the next call. It is refused with BadPath, and with BadValue if nth is 0 or the path is that of the root.
func (h *Hierarchy) Vanish(path string, nth uint64) error {
	return h.callWithPath("vanish", path, func(text *C.char, info *C.mk_info) C.uint32_t {
		return C.mk_vanish(&h.handle, text, C.uint64_t(nth), info)
	})
}

// ClearFaults drops the faults that have not occurred, and returns how many there were. The error is ErrClosed or ErrBusy.
func (h *Hierarchy) ClearFaults() (int, error) {
	var left C.size_t
	err := errorOf("clear faults", C.mk_clear_faults(&h.handle, &left))
	return int(left), err
}
