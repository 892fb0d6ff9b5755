package makhloeum

// #include "makhloeum.h"
// #include <stdlib.h>
// #include <string.h>
import "C"

import (
	"context"
	"strings"
	"unsafe"
)

// Watch sends the text of a file of the group path, and then each text that differs from the one before, as a poll of cgroup.events or
// pids.events on a mount tells of them: of changes that follow each other faster than the channel is read, the last. The channel is
// closed when the context ctx ends, the group is removed, the hierarchy is closed or the file can't be read; Read then says why. The
// faults of Fail and Vanish don't count it. Each watch keeps a thread.
func (h *Hierarchy) Watch(ctx context.Context, path, file string) <-chan string {
	texts := make(chan string)
	go func() {
		defer close(texts)
		w := newWatch(h, path, file)
		defer w.free()
		for {
			text, ok := w.next(ctx)
			if !ok {
				return
			}
			select {
			case texts <- text:
			case <-ctx.Done():
				return
			}
		}
	}()
	return texts
}

// watch is the state of one Watch. Its memory is that of C, since a call of C keeps it for long. text is the one that was seen last,
// and a call writes the next over it.
type watch struct {
	h                *Hierarchy
	path, file, text *C.char
	size             C.size_t
}

func newWatch(h *Hierarchy, path, file string) *watch {
	if strings.Contains(file, "\x00") {
		file = "?"
	}
	// no file has this text, so the first wait ends at once
	return &watch{h: h, path: cPath(path), file: C.CString(file), text: C.CString("\x01"), size: 2}
}

func (w *watch) free() {
	for _, it := range []*C.char{w.path, w.file, w.text} {
		C.free(unsafe.Pointer(it))
	}
}

// grow makes room for a text, and keeps the one that was seen.
func (w *watch) grow(size C.size_t) {
	text := (*C.char)(C.malloc(size + w.size))
	C.strcpy(text, w.text)
	C.free(unsafe.Pointer(w.text))
	w.text, w.size = text, size+w.size
}

// next waits for a text that differs from the one before.
func (w *watch) next(ctx context.Context) (string, bool) {
	for ctx.Err() == nil {
		var info C.mk_info
		status := C.mk_wait_file(&w.h.handle, w.path, w.file, w.text, C.uint32_t(milliseconds(slice)), w.text, w.size, &info)
		switch status {
		case C.MK_TIMED_OUT:
		case C.MK_TOO_SMALL:
			w.grow(info.needed)
		case C.MK_DONE:
			return C.GoStringN(w.text, C.int(info.len)), true
		default:
			return "", false
		}
	}
	return "", false
}
