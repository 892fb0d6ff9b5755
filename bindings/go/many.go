package makhloeum

// #include "makhloeum.h"
import "C"

import (
	"strings"
	"unsafe"
)

// File names a file of a group.
type File struct{ Path, Name string }

// Text is what ReadMany returns for a file: its text, or the error.
type Text struct {
	Text string
	Err  error
}

// ReadMany returns the texts of many files, all of the same state: no other call comes in between. A file that cannot be read
// has its own error, as of Read, so a group that was removed since it was listed does not affect the others. The error is ErrClosed,
// ErrBusy or syscall.ENOMEM. It takes time for each file and each byte of the texts.
func (h *Hierarchy) ReadMany(files []File) ([]Text, error) {
	if len(files) == 0 {
		return nil, h.closed("read many")
	}
	var names strings.Builder
	for _, it := range files {
		for _, part := range []string{it.Path, it.Name} {
			if strings.Contains(part, "\x00") {
				part = "?"
			}
			names.WriteString(part)
			names.WriteByte(0)
		}
	}
	words := []byte(names.String())
	texts, out := make([]C.mk_text, len(files)), make([]byte, 64*len(files)+64)
	var info C.mk_info
	for {
		status := C.mk_read_many(&h.handle, (*C.char)(unsafe.Pointer(&words[0])), C.size_t(len(files)), &texts[0],
			(*C.char)(unsafe.Pointer(&out[0])), C.size_t(len(out)), &info)
		if status == C.MK_DONE {
			break
		}
		if status != C.MK_TOO_SMALL {
			return nil, failed(command{text: "read many"}, uint32(status), info, nil)
		}
		out = make([]byte, info.needed)
	}
	all := make([]Text, len(files))
	for i, it := range texts {
		if it.status == C.MK_DONE {
			all[i].Text = string(out[it.at : it.at+it.len])
			continue
		}
		what := command{text: "read " + files[i].Path + " " + files[i].Name, path: files[i].Path, hasPath: true}
		all[i].Err = failed(what, uint32(it.status), C.mk_info{code: it.code, error: it.error}, nil)
	}
	return all, nil
}
