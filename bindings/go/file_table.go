package makhloeum

// #include "makhloeum.h"
// #include <stdlib.h>
import "C"

import (
	"io/fs"
	"syscall"
	"unsafe"
)

// file is a row of the library's table of files.
type file struct {
	name                       string
	inC                        *C.char // the library's own, which stays
	onRoot, readable, writable bool
}

// The files of a mount with --extra, in the order of their names.
var files = filesOfAMount()

func filesOfAMount() []file {
	var all []file
	for i := C.size_t(0); ; i++ {
		it := C.mk_file_at(i)
		if it == nil {
			return all
		}
		all = append(all, file{C.GoString(it.name), it.name, bool(it.on_root), bool(it.readable), bool(it.writable)})
	}
}

func (it file) mode() fs.FileMode {
	if it.writable {
		return 0o644
	}
	return 0o444
}

// fileNamed finds a file that the group has, also one that can't be read.
func fileNamed(name, group string) (file, bool) {
	for _, it := range files {
		if it.name == name {
			return it, it.onRoot || group != "/"
		}
	}
	return file{}, false
}

// get returns the text of a file as a mount shows it.
func (h *Hierarchy) get(group string, it file) (string, error) {
	path := cPath(group)
	defer C.free(unsafe.Pointer(path))
	c := newCall()
	defer c.end()
	text, err := c.told(command{text: "read " + group + " " + it.name, path: group, hasPath: true}, func() C.uint32_t {
		return C.mk_get(&h.handle, path, it.inC, (*C.char)(unsafe.Pointer(at(c.out))), C.size_t(len(c.out)), &c.info)
	})
	return string(text), err
}

// put writes a file as a write to a mount's does. The error of a refusal is the errno of the mount.
func (h *Hierarchy) put(group string, it file, data []byte, self int) error {
	path := cPath(group)
	defer C.free(unsafe.Pointer(path))
	var info C.mk_info
	status := C.mk_put(&h.handle, path, it.inC, (*C.char)(unsafe.Pointer(at(data))), C.size_t(len(data)), C.int64_t(self), &info)
	switch status {
	case C.MK_DONE:
		return nil
	case C.MK_REFUSED, C.MK_FAULT:
		return syscall.Errno(info.error)
	default:
		return failed(command{text: "write " + group + " " + it.name, path: group, hasPath: true}, uint32(status), info, nil)
	}
}

// mkdirErrno is that of a mkdir of such a path in a mount.
func (fault PathFault) mkdirErrno() error { return syscall.Errno(C.mk_path_errno(C.uint32_t(fault))) }
