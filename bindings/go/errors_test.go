package makhloeum

import (
	"errors"
	"fmt"
	"io/fs"
	"os"
	"os/exec"
	"path/filepath"
	"reflect"
	"regexp"
	"strings"
	"syscall"
	"testing"
)

func TestTextOfErrors(t *testing.T) {
	h := open(t)
	do(t, h, "mkdir /a")
	read := func(path, file string) error {
		_, err := h.Read(path, file)
		return err
	}
	children := func(path string) error {
		_, err := h.Children(path)
		return err
	}
	groups := func(path string) error {
		_, err := h.Groups(path)
		return err
	}
	line := func(line string) error {
		_, err := h.Line(line)
		return err
	}
	do(t, h, "mkdir /b", "mkdir /c", "mkdir /d", "write /b cgroup.procs 1", "write /b pids.max 1", "write /c cgroup.max.depth 0", "write /d cgroup.max.descendants 0")
	for _, row := range []struct {
		err  error
		text string
		is   error
	}{
		{h.Mkdir("/a"), "mkdir /a: file exists (exists)", fs.ErrExist},
		{h.Mkdir("/x/y"), "mkdir /x/y: no such file or directory (nogroup /x)", fs.ErrNotExist},
		{h.Rmdir("/"), "rmdir /: device or resource busy (rootfixed)", syscall.EBUSY},
		{h.Fork(1, 1), "fork 1 1: file exists (pidinuse 1)", syscall.EEXIST},
		{h.Exit(9), "exit 9: no such process (noprocess 9)", syscall.ESRCH},
		{h.Exit(-1), "exit -1: invalid argument (value: the value is not a number, or out of range)", syscall.EINVAL},
		{line("mkdir"), "mkdir: invalid argument (syntax: an unknown command, a wrong number of words, or a line that is too long)", syscall.EINVAL},
		{line("mkdir x"), "mkdir x: invalid argument (path)", syscall.EINVAL},
		{h.Write("/a", "pids.current", "1"), "write /a pids.current 1: invalid argument (direction: the file cannot be read or written in this way)", syscall.EINVAL},
		{h.Fork(1, 2), "fork 1 2: resource temporarily unavailable (pidsmax /b)", syscall.EAGAIN},
		{h.Mkdir("/c/x"), "mkdir /c/x: resource temporarily unavailable (depth /c)", syscall.EAGAIN},
		{h.Mkdir("/d/x"), "mkdir /d/x: resource temporarily unavailable (descendants /d)", syscall.EAGAIN},
		{h.Rmdir("/b"), "rmdir /b: device or resource busy (hasprocesses)", syscall.EBUSY},
		{read("/", "pids.max"), "read / pids.max: no such file or directory (nofile)", fs.ErrNotExist},
		{read("/a", "x"), "read /a x: no such file or directory (file: there is no file of that name)", fs.ErrNotExist},
		{h.Mkdir("/my service"), "mkdir /my service: invalid argument (path: a name cannot have this byte, at 3)", syscall.EINVAL},
		{children("/x"), "children /x: no such file or directory (nogroup /x)", syscall.ENOENT},
		{groups("/x"), "groups /x: no such file or directory (nogroup /x)", syscall.ENOENT},
		{groups("\xff"), "groups \xff: invalid argument (path: a path begins with a slash, at 0)", syscall.EINVAL},
	} {
		if row.err == nil || row.err.Error() != row.text || !errors.Is(row.err, row.is) {
			t.Errorf("%v; not %s", row.err, row.text)
		}
	}
	h.Close()
	if err := h.Mkdir("/b"); err.Error() != "mkdir /b: the hierarchy is closed" {
		t.Error(err)
	}
}

// A buffer grows to what is needed, else by four, and not beyond the longest answer.
func TestHowABufferGrows(t *testing.T) {
	const most = 32 + 10*pidMax // a first line, and a line for each pid
	for _, row := range [][3]int{
		{512, 513, 513}, {512, 100000, 100000}, {512, 512, 2048}, {512, 0, 2048}, {100, 50, 400}, {most / 4, 0, most / 4 * 4}, {most/4 + 1, 0, most}, {most, 0, most},
	} {
		if got := grown(row[0], row[1]); got != row[2] {
			t.Errorf("%d of %d: %d, not %d", row[1], row[0], got, row[2])
		}
	}
}

// Two goroutines may make an answer longer between three calls.
func TestABufferGrowsUntilTheAnswerFits(t *testing.T) {
	c := newCall()
	defer c.end()
	told, asked := reflect.ValueOf(c.told), 0
	of := told.Type().In(1) // a function of C's type, which a test can't name
	do := reflect.MakeFunc(of, func([]reflect.Value) []reflect.Value {
		const tooSmall, done = 3, 0
		status := tooSmall
		switch asked++; asked {
		case 1:
			c.info.needed = 600
		case 2:
			c.info.needed = 700
		default:
			status, c.info.len = done, 700
		}
		return []reflect.Value{reflect.ValueOf(status).Convert(of.Out(0))}
	})
	got := told.Call([]reflect.Value{reflect.Zero(told.Type().In(0)), do})
	if asked != 3 || got[0].Len() != 700 || !got[1].IsNil() {
		t.Errorf("asked %d times: %d bytes, %v", asked, got[0].Len(), got[1])
	}
}

func TestFaultOfAPath(t *testing.T) {
	h := open(t)
	for _, row := range []struct {
		path     string
		fault    PathFault
		position int
	}{
		{"", NotRooted, 0}, {"a", NotRooted, 0}, {"/a ", BadByte, 2}, {"/a\x00", BadByte, 2}, {"/a\n", BadByte, 2}, {"/\xff", BadByte, 1},
		{"/a/", EmptyName, 3}, {"/..", DotName, 1}, {"/a/cgroup.b", ReservedName, 3}, {"/" + strings.Repeat("x", nameMax+1), NameTooLong, 1},
		{strings.Repeat("/x", depthMax+1), TooDeep, 2*depthMax + 1}, {"/" + strings.Repeat("x", pathMax), PathTooLong, pathMax},
	} {
		_, here := h.HasGroup(row.path)
		_, below := h.Children(row.path)
		_, text := h.Read(row.path, "x y")
		_, pids := h.Processes(row.path)
		_, count := h.Current(row.path)
		for _, err := range []error{h.Mkdir(row.path), h.Rmdir(row.path), h.Write(row.path, "x", "y"), here, below, text, pids, count} {
			var refused *Refused
			if !errors.As(err, &refused) || refused.Code != BadPath || refused.PathFault != row.fault || refused.Position != row.position {
				t.Errorf("%q: %v", row.path, err)
			}
		}
	}
}

// codes and path faults are printed as the names of their constants, and other numbers with their type.
func TestCodesAndFaultsPrintAsWords(t *testing.T) {
	for want, it := range map[string]fmt.Stringer{
		"NoGroup": NoGroup, "Exists": Exists, "PidsMax": PidsMax, "NotReadable": NotReadable, "BadSyntax": BadSyntax, "BadValue": BadValue,
		"NotRooted": NotRooted, "EmptyName": EmptyName, "ReservedName": ReservedName,
		"Code(0)": Code(0), "Code(15)": NothingToUndo + 1, "Code(31)": BadSyntax - 1, "Code(37)": BadValue + 1,
		"PathFault(0)": PathFault(0), "PathFault(9)": ReservedName + 1,
	} {
		if got := fmt.Sprint(it); got != want {
			t.Errorf("%s; not %s", got, want)
		}
	}
	var refused *Refused
	if err := open(t).Mkdir("/a/"); !errors.As(err, &refused) {
		t.Fatal(err)
	}
	if got := fmt.Sprintf("%v %v %+v", refused.Code, refused.PathFault, struct{ Code Code }{refused.Code}); got != "BadPath EmptyName {Code:BadPath}" {
		t.Error(got)
	}
}

// each constant in errors.go has its own name as its text.
func TestEachConstantPrintsAsItsName(t *testing.T) {
	text, err := os.ReadFile("errors.go")
	if err != nil {
		t.Fatal(err)
	}
	found := regexp.MustCompile(`(?m)^\t(\w+) +(Code|PathFault) = C\.`).FindAllStringSubmatch(string(text), -1)
	if len(found) != len(codeNames)+len(pathFaultNames) || len(found) != 27 {
		t.Error(len(found), "constants")
	}
	names := map[string]bool{}
	for code, name := range codeNames {
		names["Code "+name] = name == code.String()
	}
	for fault, name := range pathFaultNames {
		names["PathFault "+name] = name == fault.String()
	}
	for _, row := range found {
		if !names[row[2]+" "+row[1]] {
			t.Errorf("%s has no text", row[1])
		}
	}
}

func TestNoWordLeaksIntoAnother(t *testing.T) {
	h := open(t)
	do(t, h, "mkdir /b", "fork 1 2")
	code := func(want Code, err error) {
		t.Helper()
		var refused *Refused
		if !errors.As(err, &refused) || refused.Code != want {
			t.Errorf("%v: not %d", err, want)
		}
	}
	read := func(path, file string) error {
		_, err := h.Read(path, file)
		return err
	}
	words := []string{"", " ", "/b ", " /b", "/b\t", "/b\n", "/b\r", "/b pids.max", "/b pids.max 5", "x y", "pids.max ", "pids.max 5", "\n",
		"/c\nmkdir /d", "1 2", "5 #"}
	for _, word := range words {
		code(BadPath, h.Mkdir(word))
		code(BadPath, h.Rmdir(word))
		code(BadPath, h.Write(word, "pids.max", "5"))
		code(BadFile, h.Write("/b", word, "5"))
		code(BadValue, h.Write("/b", "pids.max", word))
		code(BadFile, read("/b", word))
		for _, file := range words {
			code(BadPath, read(word, file))
		}
	}
	if depth, err := h.Depth(); err != nil || depth != 2 {
		t.Error(depth, err)
	}
}

// A test of Go can't let each call run out of memory, nor interrupt it by a signal handler of C: so the statuses are given.
func TestEachStatusHasItsOwnError(t *testing.T) {
	known := []error{syscall.ENOMEM, ErrClosed, ErrBusy}
	for _, row := range []struct {
		status uint32
		text   string
		is     error
	}{
		{3, "open: unexpected status 3 of the library: the buffer is too small", nil},
		{4, "open: cannot allocate memory", syscall.ENOMEM},
		{5, "open: unexpected status 5 of the library: a line without a command", nil},
		{6, "open: the hierarchy is closed", ErrClosed},
		{7, "open: a call of this thread is running", ErrBusy},
		{8, "open: unexpected status 8 of the library: nothing has changed in that time", nil},
		{77, "open: unexpected status 77 of the library", nil},
	} {
		h, err := made("open", func(*Hierarchy) uint32 { return row.status })
		if h != nil || err == nil || err.Error() != row.text {
			t.Errorf("%v, %v; not %s", h, err, row.text)
		}
		for _, it := range known {
			if errors.Is(err, it) != (it == row.is) {
				t.Errorf("%v: %v", err, it)
			}
		}
	}
}

// A call of C that only a new hierarchy makes is refused: by a library that is loaded before C's own, so in a process of its own.
func TestNewWithoutMemory(t *testing.T) {
	if os.Getenv("MAKHLOEUM_REFUSED") != "" {
		h, err := New()
		if h != nil || !errors.Is(err, syscall.ENOMEM) || err.Error() != "open: cannot allocate memory" {
			t.Error(h, err)
		}
		return
	}
	source, library := filepath.Join(t.TempDir(), "refuse.c"), filepath.Join(t.TempDir(), "refuse.so")
	refuse := fmt.Sprintf("int pthread_condattr_setclock(void *attributes, int clock) { return %d; }\n", syscall.ENOMEM)
	if err := os.WriteFile(source, []byte(refuse), 0o644); err != nil {
		t.Fatal(err)
	}
	compiler := os.Getenv("CC")
	if compiler == "" {
		compiler = "gcc"
	}
	alone := exec.Command(os.Args[0], "-test.run=^TestNewWithoutMemory$")
	alone.Env = append(os.Environ(), "MAKHLOEUM_REFUSED=yes", "LD_PRELOAD="+library)
	for _, command := range []*exec.Cmd{exec.Command(compiler, "-shared", "-fPIC", "-o", library, source), alone} {
		if said, err := command.CombinedOutput(); err != nil {
			t.Fatalf("%v: %v: %s", command, err, said)
		}
	}
}
