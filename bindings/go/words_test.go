package makhloeum

import (
	"errors"
	"strings"
	"syscall"
	"testing"
)

// lengths are those at which something could be cut: around buffers, and the longest name, path and line.
var lengths = []int{1, 2, 23, 127, 254, 255, 256, 257, 258, 509, 510, 511, 512, 519, 1024, 4085, 4086, 4087, 4094, 4095, 4096, 4097, 8180, 8191, 8192, 8193, 9000, 65536, 1000000}

func codeOf(err error) Code {
	var refused *Refused
	if !errors.As(err, &refused) {
		return 0
	}
	return refused.Code
}

func TestALongWordIsJudgedWhole(t *testing.T) {
	h := open(t)
	do(t, h, "mkdir /a", "fork 1 2", "write /a cgroup.procs 2")
	read := func(path, file string) error {
		_, err := h.Read(path, file)
		return err
	}
	longest := strings.Repeat("/"+strings.Repeat("n", nameMax), 15) + "/" + strings.Repeat("n", nameMax-1)
	for _, n := range lengths {
		path, file, digits := "/a/"+strings.Repeat("x", n+nameMax+1), "pids.max"+strings.Repeat("x", n), strings.Repeat("5", n+7)
		for what, row := range map[string]struct {
			err  error
			code Code
		}{
			"a long path":           {h.Mkdir(path), BadPath},
			"a long path, removed":  {h.Rmdir(path), BadPath},
			"all long, read":        {read(path, file), BadPath},
			"all long":              {h.Write(path, file, digits), BadPath},
			"a long file, read":     {read("/a", file), BadFile},
			"a long file and value": {h.Write("/a", file, digits), BadFile},
			"a file that is read":   {h.Write("/a", "pids.current", digits), BadDirection},
			"a long value":          {h.Write("/a", "pids.max", digits), BadValue},
			"leading zeros":         {h.Write("/a", "pids.max", strings.Repeat("0", n)+"5"), BadValue},
			"the longest path":      {h.Write(longest, file, digits), BadFile},
			"the longest, read":     {read(longest, file), BadFile},
			"the longest, a value":  {h.Write(longest, "pids.max", digits), BadValue},
			"two words":             {h.Write("/a", "cgroup.kill", "1"+strings.Repeat(" ", n)+"no"), BadValue},
			"only blanks":           {h.Write("/a", "pids.max", strings.Repeat("\t", n)), BadValue},
			"blanks at both ends":   {h.Write("/a", "pids.max", strings.Repeat(" ", n)+"7"+strings.Repeat("\n", n)), 0},
		} {
			if got := codeOf(row.err); got != row.code || (row.code == 0 && row.err != nil) {
				t.Errorf("%s, %d: %d, not %d", what, n, got, row.code)
			}
		}
	}
	text, err := h.Where(2)
	says(t, "0::/a\n", text, err)
	text, err = h.Read("/a", "pids.max")
	says(t, "7\n", text, err)
}

func TestAZeroByteEndsNoWord(t *testing.T) {
	h := open(t)
	do(t, h, "mkdir /a", "mkdir /b", "fork 1 2")
	for _, row := range []struct {
		err  error
		code Code
	}{
		{h.Mkdir("/c\x00"), BadPath}, {h.Rmdir("/b\x00/c"), BadPath}, {h.Write("/a", "pids.max\x00", "5"), BadFile},
		{h.Write("/a", "pids.max", "5\x00"), BadValue}, {h.Write("/a\x00", "x\x00", "\x00"), BadPath},
	} {
		if got := codeOf(row.err); got != row.code {
			t.Errorf("%v: %d, not %d", row.err, got, row.code)
		}
	}
	if depth, err := h.Depth(); err != nil || depth != 3 {
		t.Error(depth, err)
	}
}

func TestARefusalNamesTheGroupThatRefuses(t *testing.T) {
	h := open(t)
	do(t, h, "mkdir /a", "mkdir /a/b", "write /a cgroup.max.depth 1", "fork 1 2", "write /a/b cgroup.procs 2", "write /a pids.max 1")
	for want, err := range map[string]error{
		"depth /a": h.Mkdir("/a/b/c"), "pidsmax /a": h.Fork(2, 3), "nogroup /x": h.Mkdir("/x/y"), "noprocess 9": h.Exit(9), "pidinuse 2": h.Fork(1, 2),
	} {
		var refused *Refused
		if !errors.As(err, &refused) || refused.Reply != want {
			t.Errorf("%v; not %s", err, want)
		}
	}
}

func TestArgumentsOutOfRange(t *testing.T) {
	h := open(t)
	do(t, h, "mkdir /a", "mkdir /b")
	if err := h.UndoTo(-1); !errors.Is(err, syscall.EINVAL) || err.Error() != "undo to -1: a mark is not negative: invalid argument" {
		t.Error(err)
	}
	if depth, err := h.Depth(); err != nil || depth != 2 {
		t.Error(depth, err)
	}
	for _, errno := range []syscall.Errno{0, 1<<32 + 5, 1 << 31, ^syscall.Errno(0)} {
		if err := h.Fail("/a", 1, errno); !errors.Is(err, syscall.EINVAL) {
			t.Errorf("%d: %v", uint64(errno), err)
		}
	}
	if left, err := h.ClearFaults(); err != nil || left != 0 {
		t.Error(left, err)
	}
	_, where := h.Where(1<<32 + 1)
	for _, err := range []error{h.Fork(1, 1<<32+5), h.Fork(1<<32+1, 5), h.Exit(1<<32 + 1), where, h.Exit(-1)} {
		if codeOf(err) != BadValue {
			t.Error(err)
		}
	}
	if err := h.Fail("/a", 1, 1<<31-1); err != nil {
		t.Error(err)
	}
	if _, err := h.Current("/a"); !errors.Is(err, syscall.Errno(1<<31-1)) {
		t.Error(err)
	}
}

func TestOnlyOneOfTwoFaultsOccurs(t *testing.T) {
	h := open(t)
	do(t, h, "mkdir /a")
	for _, err := range []error{h.Fail("/a", 1, syscall.EIO), h.Vanish("/a", 1)} {
		if err != nil {
			t.Fatal(err)
		}
	}
	if _, err := h.Current("/a"); codeOf(err) != NoGroup {
		t.Error(err)
	}
	if left, err := h.ClearFaults(); err != nil || left != 0 {
		t.Error(left, err)
	}
}
