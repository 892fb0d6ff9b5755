package makhloeum

import (
	"context"
	"errors"
	"fmt"
	"io/fs"
	"reflect"
	"strings"
	"syscall"
	"testing"
	"time"
)

func TestManyFilesInOneCall(t *testing.T) {
	h := open(t)
	do(t, h, "mkdir /a", "mkdir /b", "write /a cgroup.procs 1")
	var long strings.Builder
	for pid := 2; pid < 3000; pid++ {
		do(t, h, fmt.Sprintf("fork 1 %d", pid), fmt.Sprintf("write /b cgroup.procs %d", pid))
		fmt.Fprintln(&long, pid)
	}
	texts, err := h.ReadMany([]File{{"/a", "pids.current"}, {"/b", "cgroup.procs"}, {"/c", "pids.max"}, {"/b", "cgroup.procs"}, {"/", "cgroup.procs"},
		{"/\x00", "x"}, {"/a", "cgroup.kill"}, {"/a", "x\x00y"}})
	if err != nil {
		t.Fatal(err)
	}
	for i, want := range map[int]string{0: "1\n", 1: long.String(), 3: long.String(), 4: ""} {
		says(t, want, texts[i].Text, texts[i].Err)
	}
	for i, want := range map[int]string{2: "read /c pids.max: no such file or directory (nogroup /c)",
		5: "read /\x00 x: invalid argument (path: a name cannot have this byte, at 1)", 6: "read /a cgroup.kill: invalid argument (direction: the file cannot be read or written in this way)",
		7: "read /a x\x00y: no such file or directory (file: there is no file of that name)"} {
		if texts[i].Text != "" || texts[i].Err == nil || texts[i].Err.Error() != want {
			t.Errorf("%v; not %s", texts[i], want)
		}
	}
	if texts, err := h.ReadMany(nil); err != nil || texts != nil {
		t.Error(texts, err)
	}
	h.Close()
	if _, err := h.ReadMany([]File{{"/a", "pids.max"}}); !errors.Is(err, ErrClosed) {
		t.Error(err)
	}
}

func TestChangesAreCounted(t *testing.T) {
	h := open(t)
	do(t, h, "mkdir /a", "cat /a pids.max")
	if err := h.Mkdir("/a"); err == nil {
		t.Error("no error")
	}
	do(t, h, "undo")
	if changes, err := h.Changes(); err != nil || changes != 2 {
		t.Error(changes, err)
	}
	for seen := uint64(0); seen < 2; seen++ {
		if changes, err := h.Wait(context.Background(), seen); err != nil || changes != 2 {
			t.Error(changes, err)
		}
	}
	start := time.Now()
	ctx, cancel := context.WithTimeout(context.Background(), 120*time.Millisecond)
	defer cancel()
	if _, err := h.Wait(ctx, 2); !errors.Is(err, context.DeadlineExceeded) || time.Since(start) < 120*time.Millisecond {
		t.Error(err, time.Since(start))
	}
	cancelled, cancel := context.WithCancel(context.Background())
	cancel()
	if _, err := h.Wait(cancelled, 2); !errors.Is(err, context.Canceled) {
		t.Error(err)
	}
}

func TestAWaitEndsWithAChangeAndWithTheHierarchy(t *testing.T) {
	h := open(t)
	groups, ended := make(chan []string), make(chan error)
	go func() {
		for seen := uint64(0); ; {
			now, err := h.Wait(context.Background(), seen)
			if err != nil {
				ended <- err
				return
			}
			seen = now
			all, err := h.Groups("/")
			if err != nil {
				ended <- err
				return
			}
			groups <- all
		}
	}()
	want := []string{"/"}
	for _, name := range []string{"/a", "/b"} {
		do(t, h, "mkdir "+name)
		want = append(want, name)
		if got := <-groups; !reflect.DeepEqual(got, want) {
			t.Error(got)
		}
	}
	h.Close()
	if err := <-ended; !errors.Is(err, ErrClosed) || err.Error() != "wait: the hierarchy is closed" {
		t.Error(err)
	}
}

func TestTheNthCallFails(t *testing.T) {
	h := open(t)
	do(t, h, "mkdir /a")
	plan := func(err error) {
		t.Helper()
		if err != nil {
			t.Fatal(err)
		}
	}
	plan(h.Fail("/a", 1, syscall.EIO))
	if _, err := h.Read("/a", "pids.max"); !errors.Is(err, syscall.EIO) || err.Error() != "read /a pids.max: input/output error (asked for by Fail)" {
		t.Error(err)
	}
	plan(h.Fail("/a", 2, syscall.ENODEV))
	text, err := h.Read("/a", "pids.max")
	says(t, "max\n", text, err)
	if _, err := h.Current("/a"); !errors.Is(err, syscall.ENODEV) || err.Error() != "current /a: no such device (asked for by Fail)" {
		t.Error(err)
	}
	plan(h.Fail("/a", 1, syscall.EIO))
	if _, err := h.FS().ReadDir("a"); !errors.Is(err, syscall.EIO) {
		t.Error(err)
	}
	plan(h.Fail("/a", 1, syscall.EIO))
	texts, err := h.ReadMany([]File{{"/a", "pids.max"}, {"/a", "pids.max"}})
	if err != nil || !errors.Is(texts[0].Err, syscall.EIO) || texts[1].Text != "max\n" {
		t.Error(texts, err)
	}
	plan(h.Fail("/a", 5, syscall.EIO))
	if left, err := h.ClearFaults(); err != nil || left != 1 {
		t.Error(left, err)
	}
	for _, err := range []error{h.Fail("a", 1, syscall.EIO), h.Fail("/a", 0, syscall.EIO), h.Fail("/a", 1, 0), h.Vanish("/", 1), h.Vanish("/\x00", 1)} {
		if !errors.Is(err, syscall.EINVAL) {
			t.Error(err)
		}
	}
}

func TestAGroupVanishesBetweenAListingAndARead(t *testing.T) {
	h := open(t)
	do(t, h, "mkdir /a", "mkdir /a/b", "mkdir /c", "fork 1 2", "write /a/b cgroup.procs 2")
	mark, err := h.Depth()
	if err != nil {
		t.Fatal(err)
	}
	if err := h.Vanish("/a", 1); err != nil {
		t.Fatal(err)
	}
	if names, err := h.Children("/"); err != nil || !reflect.DeepEqual(names, []string{"a", "c"}) {
		t.Error(names, err)
	}
	var refused *Refused
	if _, err := h.Read("/a", "pids.max"); !errors.As(err, &refused) || refused.Code != NoGroup {
		t.Error(err)
	}
	if groups, err := h.Groups("/"); err != nil || !reflect.DeepEqual(groups, []string{"/", "/c"}) {
		t.Error(groups, err)
	}
	if err := h.UndoTo(mark); err != nil {
		t.Fatal(err)
	}
	text, err := h.Where(2)
	says(t, "0::/a/b\n", text, err)
}

// Each operation on the file system is one call that names the group.
func TestFaultsCountOperationsOnFiles(t *testing.T) {
	h := open(t)
	f := h.FS()
	do(t, h, "mkdir /a")
	for want, operation := range map[string]func() error{
		"open a/pids.max: read /a pids.max":         func() error { _, err := f.ReadFile("a/pids.max"); return err },
		"open a/cpu.stat: read /a cpu.stat":         func() error { _, err := f.ReadFile("a/cpu.stat"); return err },
		"stat a: has_group /a":                      func() error { _, err := f.Stat("a"); return err },
		"stat a/pids.current: read /a pids.current": func() error { _, err := f.Stat("a/pids.current"); return err },
		"open a: children /a":                       func() error { _, err := f.ReadDir("a"); return err },
		"open a: has_group /a":                      func() error { _, err := f.Open("a"); return err },
		"open a/pids.peak: read /a pids.peak":       func() error { _, err := f.Open("a/pids.peak"); return err },
		"write a/pids.max: write /a pids.max":       func() error { return f.WriteFile("a/pids.max", []byte("5")) },
		"write a: has_group /a":                     func() error { return f.WriteFile("a", []byte("5")) },
		"write a/none: has_group /a":                func() error { return f.WriteFile("a/none", nil) },
		"mkdir a: mkdir /a":                         func() error { return f.Mkdir("a") },
		"remove a: rmdir /a":                        func() error { return f.Remove("a") },
	} {
		for nth, fails := range map[uint64]bool{1: true, 2: false} {
			if err := h.Fail("/a", nth, syscall.EIO); err != nil {
				t.Fatal(err)
			}
			err := operation()
			if errors.Is(err, syscall.EIO) != fails {
				t.Errorf("%s: %v", want, err)
			}
			if fails && err.Error() != want+": input/output error (asked for by Fail)" {
				t.Errorf("%v; not %s", err, want)
			}
			if left, err := h.ClearFaults(); err != nil || (left == 0) != fails {
				t.Errorf("%s: %d, %v", want, left, err)
			}
		}
		if err := f.Mkdir("a"); err != nil && !errors.Is(err, fs.ErrExist) {
			t.Fatal(err)
		}
	}
}
