package makhloeum

import (
	"bytes"
	"errors"
	"io"
	"io/fs"
	"path"
	"sort"
	"strings"
	"syscall"
	"time"
)

// FS is the hierarchy as a file system, for code that reads a cgroup directory through fs.FS: os.DirFS("/sys/fs/cgroup")
// in a service, FS in its tests. "." is the root group. It has the files of a mount with --extra (docs/MOUNT.md); as every file
// of an fs.FS can be read, cgroup.kill is not among them, but WriteFile writes it. A file has the text that it had when it was
// opened.
type FS struct {
	h    *Hierarchy
	self int
}

var (
	_ fs.ReadDirFS  = FS{}
	_ fs.ReadFileFS = FS{}
	_ fs.StatFS     = FS{}
)

// FS returns the hierarchy as a file system, as process 1 sees it.
func (h *Hierarchy) FS() FS { return FS{h, 1} }

// As returns the same file system for the process pid: the one that moves when 0 is written to cgroup.procs.
func (f FS) As(pid int) FS { return FS{f.h, pid} }

// node is a group or a file, as it was found.
type node struct {
	name string
	mode fs.FileMode
	text string
}

func (n *node) Name() string       { return n.name }
func (n *node) Size() int64        { return int64(len(n.text)) }
func (n *node) Mode() fs.FileMode  { return n.mode }
func (n *node) ModTime() time.Time { return time.Time{} }
func (n *node) IsDir() bool        { return n.mode.IsDir() }
func (n *node) Sys() interface{}   { return nil }

// groupOf returns the path of the group for a name of a file system.
func groupOf(name string) string {
	if name == "." {
		return "/"
	}
	return "/" + name
}

// find returns the group or file of that name. A group that is removed meanwhile is not found.
func (f FS) find(operation, name string) (*node, error) {
	if !fs.ValidPath(name) {
		return nil, &fs.PathError{Op: operation, Path: name, Err: fs.ErrInvalid}
	}
	n, err := f.node(name)
	if err != nil {
		return nil, &fs.PathError{Op: operation, Path: name, Err: err}
	}
	return n, nil
}

// node makes one call that names the group, so that Fail and Vanish count operations.
func (f FS) node(name string) (*node, error) {
	group, base := groupOf(path.Dir(name)), path.Base(name)
	if it, ok := fileNamed(base, group); ok && it.readable {
		text, err := f.h.get(group, it)
		return &node{name: base, mode: it.mode(), text: text}, notFound(err)
	}
	there, err := f.h.HasGroup(groupOf(name))
	if err == nil && !there {
		err = syscall.ENOENT
	}
	if err != nil {
		return nil, notFound(err)
	}
	return &node{name: base, mode: fs.ModeDir | 0o755}, nil
}

// notFound turns a text that is not the path of a group into one that does not exist.
func notFound(err error) error {
	var refused *Refused
	if !errors.As(err, &refused) || refused.Code != BadPath {
		return err
	}
	if refused.PathFault == PathTooLong {
		return syscall.ENAMETOOLONG
	}
	return syscall.ENOENT
}

// Stat describes the group or file of that name. The error is syscall.ENOENT if there is none, and fs.ErrInvalid if the name is not one
// of an fs.FS.
func (f FS) Stat(name string) (fs.FileInfo, error) { return f.find("stat", name) }

// ReadFile returns the text of the file of that name. The error is as of Stat, and syscall.EISDIR for a group. Of cgroup.procs it takes
// time for each process.
func (f FS) ReadFile(name string) ([]byte, error) {
	n, err := f.find("open", name)
	if err != nil {
		return nil, err
	}
	if n.IsDir() {
		return nil, &fs.PathError{Op: "read", Path: name, Err: syscall.EISDIR}
	}
	return []byte(n.text), nil
}

// entry is a group or a file in a listing. It is read when Info is called.
type entry struct {
	f          FS
	name, path string
	mode       fs.FileMode
}

func (e entry) Name() string               { return e.name }
func (e entry) IsDir() bool                { return e.mode.IsDir() }
func (e entry) Type() fs.FileMode          { return e.mode.Type() }
func (e entry) Info() (fs.FileInfo, error) { return e.f.Stat(e.path) }

// ReadDir lists the files of the group of that name and the groups one name below it, in the order of their names. The error is as of
// Stat, and syscall.ENOTDIR for a file. It takes time for each of them.
func (f FS) ReadDir(name string) ([]fs.DirEntry, error) {
	group := groupOf(name)
	if !fs.ValidPath(name) || isFile(name) {
		if _, err := f.find("open", name); err != nil {
			return nil, err
		}
		return nil, &fs.PathError{Op: "readdir", Path: name, Err: syscall.ENOTDIR}
	}
	names, err := f.h.Children(group)
	if err != nil {
		return nil, &fs.PathError{Op: "open", Path: name, Err: notFound(err)}
	}
	var entries []fs.DirEntry
	for _, child := range names {
		entries = append(entries, entry{f, child, path.Join(name, child), fs.ModeDir | 0o755})
	}
	for _, it := range files {
		if it.readable && (it.onRoot || group != "/") {
			entries = append(entries, entry{f, it.name, path.Join(name, it.name), it.mode()})
		}
	}
	sort.Slice(entries, func(i, j int) bool { return entries[i].Name() < entries[j].Name() })
	return entries, nil
}

// Open opens the group or file of that name for reading. The error is as of Stat. Of cgroup.procs it takes time for each process.
func (f FS) Open(name string) (fs.File, error) {
	n, err := f.find("open", name)
	if err != nil {
		return nil, err
	}
	if n.IsDir() {
		return &openGroup{f: f, path: name, node: n}, nil
	}
	return &openFile{bytes.NewReader([]byte(n.text)), n}, nil
}

type openFile struct {
	*bytes.Reader
	node *node
}

func (o *openFile) Stat() (fs.FileInfo, error) { return o.node, nil }
func (o *openFile) Close() error               { return nil }

// openGroup is an open group. It is listed at its first ReadDir.
type openGroup struct {
	f       FS
	path    string
	node    *node
	listed  bool
	entries []fs.DirEntry
}

func (o *openGroup) Stat() (fs.FileInfo, error) { return o.node, nil }
func (o *openGroup) Close() error               { return nil }

func (o *openGroup) Read([]byte) (int, error) {
	return 0, &fs.PathError{Op: "read", Path: o.path, Err: syscall.EISDIR}
}

func (o *openGroup) ReadDir(n int) ([]fs.DirEntry, error) {
	if !o.listed {
		entries, err := o.f.ReadDir(o.path)
		if err != nil {
			return nil, err
		}
		o.entries, o.listed = entries, true
	}
	if n > 0 && len(o.entries) == 0 {
		return nil, io.EOF
	}
	if n <= 0 || n > len(o.entries) {
		n = len(o.entries)
	}
	part := append([]fs.DirEntry{}, o.entries[:n]...)
	o.entries = o.entries[n:]
	return part, nil
}

// WriteFile writes data to the file of that name, as os.WriteFile does below a mount: numbers may be octal, hexadecimal or signed, a
// constant accepts its current value, cgroup.freeze freezes, and 0 in cgroup.procs is this process. The error is the errno of a mount, such as
// syscall.EINVAL, ERANGE or ESRCH, ENOENT for a missing group, and EACCES for a file that its group lacks. A kill takes time for each process that
// it ends.
func (f FS) WriteFile(name string, data []byte) error {
	if !fs.ValidPath(name) {
		return &fs.PathError{Op: "open", Path: name, Err: fs.ErrInvalid}
	}
	if err := f.write(name, data); err != nil {
		return &fs.PathError{Op: "write", Path: name, Err: err}
	}
	return nil
}

// write makes one call that names the group.
func (f FS) write(name string, data []byte) error {
	group, base := groupOf(path.Dir(name)), path.Base(name)
	err := error(syscall.EISDIR)
	if it, ok := fileNamed(base, group); ok {
		err = f.h.put(group, it, data, f.self)
	} else if _, missing := f.node(name); missing == syscall.ENOENT {
		err = f.notCreated(name)
	} else if missing != nil {
		err = missing
	}
	if err == syscall.ENOENT && f.isBelowFile(name) {
		return syscall.ENOTDIR
	}
	return err
}

// notCreated returns the error of an open that would create the file of that name: no group lets a file be created.
func (f FS) notCreated(name string) error {
	if strings.Contains(name, "\x00") {
		return syscall.EINVAL
	}
	there, err := f.h.HasGroup(groupOf(path.Dir(name)))
	if err != nil {
		return notFound(err)
	}
	if !there {
		return syscall.ENOENT
	}
	return syscall.EACCES
}

// isBelowFile says whether a part of the name before its last one is a file that is there.
func (f FS) isBelowFile(name string) bool {
	for above := path.Dir(name); above != "."; above = path.Dir(above) {
		group := groupOf(path.Dir(above))
		if _, ok := fileNamed(path.Base(above), group); ok {
			if there, err := f.h.HasGroup(group); err == nil && there {
				return true
			}
		}
	}
	return false
}

// isFile says whether the name is that of a file in some group that can be read.
func isFile(name string) bool {
	it, ok := fileNamed(path.Base(name), groupOf(path.Dir(name)))
	return ok && it.readable
}

// Mkdir makes the group of that name, as os.Mkdir does. The error is that of Hierarchy.Mkdir, or an errno of a mount for a name that
// no group can have, such as syscall.ENAMETOOLONG. It moves 16 bytes for each group with the same parent.
func (f FS) Mkdir(name string) error {
	return f.change("mkdir", name, f.h.Mkdir, syscall.EEXIST)
}

// Remove removes the group of that name, as os.Remove does. The error is that of Hierarchy.Rmdir, and syscall.EPERM for a file. It
// moves 16 bytes for each group with the same parent.
func (f FS) Remove(name string) error {
	return f.change("remove", name, f.h.Rmdir, syscall.EPERM)
}

// change makes or removes a group; ofFile is the error for the name of a file that is there.
func (f FS) change(operation, name string, change func(string) error, ofFile syscall.Errno) error {
	if isFile(name) {
		if _, err := f.find(operation, name); err != nil {
			return err
		}
		return &fs.PathError{Op: operation, Path: name, Err: ofFile}
	}
	if !fs.ValidPath(name) {
		return &fs.PathError{Op: operation, Path: name, Err: fs.ErrInvalid}
	}
	if err := change(groupOf(name)); err != nil {
		return &fs.PathError{Op: operation, Path: name, Err: f.asMount(operation, name, err)}
	}
	return nil
}

// asMount returns the errno of a mount for a name that no group can have: a missing parent comes first.
func (f FS) asMount(operation, name string, err error) error {
	var refused *Refused
	if !errors.As(err, &refused) || refused.Code != BadPath {
		return err
	}
	if operation != "mkdir" {
		return notFound(err)
	}
	if f.isBelowFile(name) {
		return syscall.ENOTDIR
	}
	if _, err := f.node(path.Dir(name)); err != nil {
		return err
	}
	if _, isFile := fileNamed(path.Base(name), groupOf(path.Dir(name))); isFile {
		return syscall.EEXIST
	}
	return refused.PathFault.mkdirErrno()
}
