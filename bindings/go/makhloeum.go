// Package makhloeum keeps a cgroup hierarchy in memory that behaves like the kernel's cgroup files, for tests of
// programs that read and write such files.
//
//	func show() error {
//		h, err := makhloeum.New()
//		if err != nil {
//			return err
//		}
//		defer h.Close()
//		h.Mkdir("/a")
//		h.Fork(1, 2)
//		h.Write("/a", "cgroup.procs", "2")
//		text, err := h.Read("/a", "pids.current") // "1\n"
//		busy := h.Rmdir("/a")                     // errors.Is(busy, syscall.EBUSY)
//		undone, err := h.Undo()                   // "write /a cgroup.procs 2"
//		fmt.Println(text, busy, undone)
//		return err
//	}
//
// A path is "/" or a text such as "/a/b", of at most 4,095 bytes and 32 names. A pid is a number from 1 to 4,194,303.
//
// A refusal is a *Refused, whose Code is BadPath for a text that is not a path, NoGroup for a group that doesn't exist, or one of
// those that the method names. Nothing has changed then. errors.Is finds the errno that the kernel gives for it, and fs.ErrExist and
// fs.ErrNotExist. In other errors errors.Is finds ErrClosed, ErrBusy, syscall.ENOMEM or the errno that Fail was given; every method
// can return these, and their text begins with the command. Wait also returns the error of its context, and FS every error in a
// *fs.PathError.
//
// A method with a path takes time for each name of the path. Its comment says what else takes time; the others take constant time.
//
// The package links the archive libmakhloeum.a beside it, which bindings/build puts there. With the build tag
// makhloeum_pkgconfig it links the library that pkg-config names.
package makhloeum

// #include "makhloeum.h"
import "C"

import (
	"runtime"
	"strconv"
	"strings"
	"sync"
	"unsafe"
)

// Hierarchy is a hierarchy of groups: at first only the root, and process 1 in it. Goroutines may share it: commands take
// effect one after the other.
type Hierarchy struct {
	_      [0]sync.Mutex // go vet reports a copy, whose original the garbage collector would close
	handle C.mk_handle   // a call of C has a pointer to it, so the finalizer doesn't run meanwhile
}

// Version returns the version of the library that the program was linked with, such as "1.0.0".
func Version() string { return C.GoString(C.mk_version()) }

// New makes a hierarchy. Close frees it. If it is not closed, its finalizer frees it once nothing refers to it. The error is
// syscall.ENOMEM when out of memory.
func New() (*Hierarchy, error) {
	return made("open", func(h *Hierarchy) uint32 { return uint32(C.mk_open(&h.handle)) })
}

// made returns a new hierarchy, whose engine comes from a call that returns a status.
func made(operation string, fill func(h *Hierarchy) uint32) (*Hierarchy, error) {
	h := new(Hierarchy)
	if status := fill(h); status != C.MK_DONE {
		return nil, failure(command{text: operation}, status, 0, nil)
	}
	runtime.SetFinalizer(h, (*Hierarchy).Close)
	return h, nil
}

// Close waits for the call that is running and frees the engine. Every later call returns ErrClosed, a second Close too. The error is
// ErrClosed or ErrBusy, so the first Close of a program without handlers in C has none. It takes time for each group, process and
// recorded command.
func (h *Hierarchy) Close() error { return errorOf("close", C.mk_close(&h.handle)) }

// at returns a pointer for a text that may be empty.
func at(text []byte) *C.uint8_t {
	if len(text) == 0 {
		return (*C.uint8_t)(unsafe.Pointer(&[1]byte{}))
	}
	return (*C.uint8_t)(unsafe.Pointer(&text[0]))
}

// call is what one call of the library needs and returns. Each has its own, so calls share nothing.
type call struct {
	info  C.mk_info
	lens  [wordsMax]C.size_t
	out   []byte
	first [firstSize]byte
}

const firstSize, wordsMax = 512, 4

var calls = sync.Pool{New: func() interface{} { return new(call) }}

func newCall() *call { return calls.Get().(*call) }

func (c *call) end() {
	c.out = nil
	calls.Put(c)
}

// told returns the bytes of the call's answer, which are valid until the call ends. Another goroutine may make the
// answer longer between two calls, so the buffer may grow more than once, but not beyond the longest answer.
func (c *call) told(what command, do func() C.uint32_t) ([]byte, error) {
	c.out = c.first[:]
	for {
		status := do()
		told := c.out[:c.info.len]
		switch {
		case status == C.MK_DONE, status == C.MK_SKIPPED:
			return told, nil
		case status == C.MK_TOO_SMALL && len(c.out) < C.MK_ANSWER_MAX:
			c.out = make([]byte, grown(len(c.out), int(c.info.needed)))
		default:
			return nil, failed(what, uint32(status), c.info, told)
		}
	}
}

func grown(size, needed int) int {
	if needed > size {
		return needed
	}
	if 4*size > C.MK_ANSWER_MAX {
		return C.MK_ANSWER_MAX
	}
	return 4 * size
}

// shown returns the text after an answer's first line.
func shown(answer []byte) string {
	lines := strings.SplitAfter(string(answer), "\n")[1:]
	for i := range lines {
		lines[i] = strings.TrimPrefix(lines[i], "| ")
	}
	return strings.Join(lines, "")
}

// asked returns the text that a call's answer shows.
func (h *Hierarchy) asked(c *call, what command, do func() C.uint32_t) (string, error) {
	answer, err := c.told(what, do)
	if err != nil {
		return "", err
	}
	return shown(answer), nil
}

// Line answers one line of the trace language, such as "cat /a pids.current", and returns its text: the file's for a cat and a
// where, the undone command for an undo, else none. It is refused with what the method of the command is, and with BadSyntax if
// the line is not a command or has more than 8,192 bytes. It takes time for each byte of the line, and for what the command does.
func (h *Hierarchy) Line(line string) (string, error) {
	if strings.Contains(line, "\n") {
		if err := h.closed(line); err != nil {
			return "", err
		}
		return "", &Refused{Code: BadSyntax, Reply: "syntax", Command: line}
	}
	c := newCall()
	defer c.end()
	text := []byte(line)
	answer, err := h.asked(c, command{text: line}, func() C.uint32_t {
		return C.mk_line(&h.handle, 1, at(text), C.size_t(len(text)), at(c.out), C.size_t(len(c.out)), &c.info)
	})
	if refused, ok := err.(*Refused); ok && refused.Code != BadSyntax {
		refused.takePath(line)
	}
	return answer, err
}

// words returns the text that a command of words shows.
func (h *Hierarchy) words(what command, words ...string) (string, error) {
	c := newCall()
	defer c.end()
	text := []byte(strings.Join(words, ""))
	for i, word := range words {
		c.lens[i] = C.size_t(len(word))
	}
	return h.asked(c, what, func() C.uint32_t {
		return C.mk_words(&h.handle, 1, (*C.char)(unsafe.Pointer(at(text))), &c.lens[0], C.size_t(len(words)), at(c.out),
			C.size_t(len(c.out)), &c.info)
	})
}

func (h *Hierarchy) do(operation, path string, words ...string) (string, error) {
	what := command{text: operation + " " + path, path: path, hasPath: true}
	if operation == "cat" {
		what.text = "read " + path
	}
	for _, it := range words {
		what.text += " " + it
	}
	return h.words(what, append([]string{operation, path}, words...)...)
}

// Mkdir makes the group path. It is refused with Exists, NoGroup if there is no parent, Descendants or Depth if a limit is reached,
// and NoSlot beyond 1,024 groups. It moves 16 bytes for each group with the same parent.
func (h *Hierarchy) Mkdir(path string) error {
	_, err := h.do("mkdir", path)
	return err
}

// Rmdir removes the group path, which has neither children nor processes. It is refused with RootFixed, NoGroup, HasChildren or
// HasProcesses. It moves 16 bytes for each group with the same parent.
func (h *Hierarchy) Rmdir(path string) error {
	_, err := h.do("rmdir", path)
	return err
}

// Read returns the text of a file of the group path, such as "1\n" of pids.current. It is refused with NoGroup, BadFile if no group
// has such a file, NoFile if the root has none, and BadDirection for cgroup.kill. Of cgroup.procs it takes time for each process.
func (h *Hierarchy) Read(path, file string) (string, error) { return h.do("cat", path, file) }

// Write writes value to a file of the group path: a pid to cgroup.procs, a limit or "max" to pids.max, cgroup.max.depth or
// cgroup.max.descendants, "1" to cgroup.kill. It is refused with NoGroup, BadFile, NoFile if the root has no such file, BadDirection
// if it can't be written, BadValue if the value is not a number or out of range, and NoProcess. A kill takes time for each process
// that it ends.
func (h *Hierarchy) Write(path, file, value string) error {
	_, err := h.do("write", path, file, value)
	return err
}

func (h *Hierarchy) pids(operation string, pids ...int) (string, error) {
	words := []string{operation}
	for _, pid := range pids {
		words = append(words, strconv.Itoa(pid))
	}
	return h.words(command{text: strings.Join(words, " ")}, words...)
}

// Fork makes the process child, which starts in the group of the process parent. It is refused with NoProcess if there is no parent,
// PidInUse, PidsMax if a limit is reached, and BadValue for a number that is not a pid. PidsMax is counted in pids.events, and
// recorded.
func (h *Hierarchy) Fork(parent, child int) error {
	_, err := h.pids("fork", parent, child)
	return err
}

// Exit ends and reaps the process pid. It is refused with NoProcess, and with BadValue for a number that is not a pid.
func (h *Hierarchy) Exit(pid int) error {
	_, err := h.pids("exit", pid)
	return err
}

// Where returns the text of /proc/PID/cgroup of the process pid, such as "0::/a\n". It is refused with NoProcess, and with BadValue
// for a number that is not a pid.
func (h *Hierarchy) Where(pid int) (string, error) { return h.pids("where", pid) }

// Undo undoes the newest recorded command, and returns its text, such as "mkdir /a". It is refused with NothingToUndo. It takes as
// much time as the command: that of a kill for each process that it ended.
func (h *Hierarchy) Undo() (string, error) {
	c := newCall()
	defer c.end()
	text, err := h.asked(c, command{text: "undo"}, func() C.uint32_t {
		return C.mk_undo(&h.handle, 1, at(c.out), C.size_t(len(c.out)), &c.info)
	})
	return strings.TrimSuffix(text, "\n"), err
}

// errorOf is the error of a call with that status, which took neither a line nor a path.
func errorOf(call string, status C.uint32_t) error {
	if status == C.MK_DONE {
		return nil
	}
	return failure(command{text: call}, uint32(status), 0, nil)
}

// closed is the error of a call that does not reach the library.
func (h *Hierarchy) closed(call string) error {
	var changes C.uint64_t
	return errorOf(call, C.mk_changes(&h.handle, &changes))
}

// Depth returns how many recorded commands can be undone. The error is ErrClosed or ErrBusy.
func (h *Hierarchy) Depth() (int, error) {
	var depth C.size_t
	err := errorOf("depth", C.mk_depth(&h.handle, &depth))
	return int(depth), err
}

// Forget forgets the recorded commands and frees their memory: groups, processes and counts stay, and nothing earlier can
// be undone. The error is ErrClosed or ErrBusy. It takes time for each recorded command, and no memory.
func (h *Hierarchy) Forget() error {
	return errorOf("forget", C.mk_forget(&h.handle))
}

// Copy makes a new hierarchy with the same groups, processes, counts and recorded commands. From then on the two are
// independent. The copy has no faults of Fail and Vanish, and its Changes begins at 0. It is freed like one that New
// makes. The error is ErrClosed, ErrBusy or syscall.ENOMEM. It takes time and memory for each group, process and recorded command.
func (h *Hierarchy) Copy() (*Hierarchy, error) {
	return made("copy", func(to *Hierarchy) uint32 { return uint32(C.mk_copy(&h.handle, &to.handle)) })
}
