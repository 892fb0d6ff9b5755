package makhloeum

// #include "makhloeum.h"
// #include <stdlib.h>
import "C"

import (
	"fmt"
	"strings"
	"syscall"
	"unsafe"
)

// cPath copies the path for C; the caller frees it. C would cut a path at a zero byte.
func cPath(path string) *C.char {
	if strings.Contains(path, "\x00") {
		path = "?"
	}
	return C.CString(path)
}

// callWithPath makes a call of C that takes the path of a group.
func (h *Hierarchy) callWithPath(what, path string, call func(path *C.char, info *C.mk_info) C.uint32_t) error {
	text := cPath(path)
	defer C.free(unsafe.Pointer(text))
	var info C.mk_info
	status := call(text, &info)
	if status == C.MK_DONE {
		return nil
	}
	return failed(command{text: what + " " + path, path: path, hasPath: true}, uint32(status), info, nil)
}

// Current returns pids.current: the number of processes of the group path and of the groups below it. It is refused with NoGroup, and
// with NoFile for the root.
func (h *Hierarchy) Current(path string) (int, error) {
	var value C.uint64_t
	err := h.callWithPath("current", path, func(text *C.char, info *C.mk_info) C.uint32_t {
		return C.mk_current(&h.handle, text, &value, info)
	})
	return int(value), err
}

// Peak returns pids.peak: the largest pids.current of the group path so far. It is refused with NoGroup, and with NoFile for the root.
func (h *Hierarchy) Peak(path string) (int, error) {
	var value C.uint64_t
	err := h.callWithPath("peak", path, func(text *C.char, info *C.mk_info) C.uint32_t {
		return C.mk_peak(&h.handle, text, &value, info)
	})
	return int(value), err
}

// Limit returns pids.max of the group path, a number of processes, and false if there is no limit. It is refused with NoGroup, and
// with NoFile for the root.
func (h *Hierarchy) Limit(path string) (int, bool, error) {
	var value C.uint64_t
	err := h.callWithPath("limit", path, func(text *C.char, info *C.mk_info) C.uint32_t {
		return C.mk_limit(&h.handle, text, &value, info)
	})
	if err != nil || value == C.MK_NO_LIMIT {
		return 0, false, err
	}
	return int(value), true, nil
}

// Populated says whether the group path or a group below it has a process. It is refused with NoGroup, and with NoFile for the root.
func (h *Hierarchy) Populated(path string) (bool, error) {
	var populated C.bool
	err := h.callWithPath("populated", path, func(text *C.char, info *C.mk_info) C.uint32_t {
		return C.mk_populated(&h.handle, text, &populated, info)
	})
	return bool(populated), err
}

// Processes returns the pids of the group path itself, ascending. It is refused with NoGroup. It takes time for each of them.
func (h *Hierarchy) Processes(path string) ([]int, error) {
	found := make([]C.uint32_t, 64)
	count := 0
	err := h.callWithPath("processes", path, func(text *C.char, info *C.mk_info) C.uint32_t {
		for {
			status := C.mk_processes(&h.handle, text, &found[0], C.size_t(len(found)), info)
			count = int(info.count)
			if status != C.MK_TOO_SMALL {
				return status
			}
			found = make([]C.uint32_t, info.needed)
		}
	})
	pids := make([]int, count)
	for i := range pids {
		pids[i] = int(found[i])
	}
	return pids, err
}

// UndoTo undoes recorded commands until only mark are left. An earlier Depth gives the mark; syscall.EINVAL if it is negative. No
// other call comes in between. It is refused with NothingToUndo if fewer are left already. If it runs out of memory, the commands that
// were undone so far stay undone, and Depth says how many are left. It takes time for each of them.
func (h *Hierarchy) UndoTo(mark int) error {
	what := command{text: fmt.Sprint("undo to ", mark)}
	if mark < 0 {
		if err := h.closed(what.text); err != nil {
			return err
		}
		return fmt.Errorf("%s: a mark is not negative: %w", what.text, syscall.EINVAL)
	}
	var info C.mk_info
	status := C.mk_undo_to(&h.handle, C.size_t(mark), &info)
	if status == C.MK_DONE {
		return nil
	}
	return failed(what, uint32(status), info, nil)
}

// Reset undoes all recorded commands. The error is ErrClosed, ErrBusy or syscall.ENOMEM; then some stay undone, as with UndoTo. It
// takes time for each of them.
func (h *Hierarchy) Reset() error { return h.UndoTo(0) }
