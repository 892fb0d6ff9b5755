package makhloeum

import (
	"errors"
	"fmt"
	"reflect"
	"strings"
	"syscall"
	"testing"
)

func TestNumbers(t *testing.T) {
	h := open(t)
	do(t, h, "mkdir /a", "mkdir /a/b", "write /a pids.max 500")
	var want []int
	for pid := 2; pid < 202; pid++ {
		do(t, h, fmt.Sprintf("fork 1 %d", pid), fmt.Sprintf("write /a/b cgroup.procs %d", pid))
		want = append(want, pid)
	}
	if pids, err := h.Processes("/a/b"); err != nil || !reflect.DeepEqual(pids, want) {
		t.Error(pids, err)
	}
	if pids, err := h.Processes("/a"); err != nil || len(pids) != 0 {
		t.Error(pids, err)
	}
	do(t, h, "exit 201")
	current, err := h.Current("/a")
	if err != nil || current != 199 {
		t.Error(current, err)
	}
	peak, err := h.Peak("/a")
	if err != nil || peak != 200 {
		t.Error(peak, err)
	}
	if limit, ok, err := h.Limit("/a"); err != nil || !ok || limit != 500 {
		t.Error(limit, ok, err)
	}
	if _, ok, err := h.Limit("/a/b"); err != nil || ok {
		t.Error(ok, err)
	}
	do(t, h, "write /a/b pids.max 0")
	if limit, ok, err := h.Limit("/a/b"); err != nil || !ok || limit != 0 {
		t.Error(limit, ok, err)
	}
	if populated, err := h.Populated("/a"); err != nil || !populated {
		t.Error(populated, err)
	}
	_, err = h.Current("/x\x00y")
	var refused *Refused
	if !errors.As(err, &refused) || refused.PathFault != BadByte || refused.Position != 2 {
		t.Error(err)
	}
	if _, err := h.Processes("/c"); !errors.Is(err, syscall.ENOENT) {
		t.Error(err)
	}
	if _, _, err := h.Limit("/"); !errors.Is(err, syscall.ENOENT) || err.Error() != "limit /: no such file or directory (nofile)" {
		t.Error(err)
	}
}

func TestMarks(t *testing.T) {
	h := open(t)
	do(t, h, "mkdir /a")
	mark, err := h.Depth()
	if err != nil {
		t.Fatal(err)
	}
	do(t, h, "mkdir /a/b", "fork 1 2", "write /a/b cgroup.procs 2")
	if err := h.UndoTo(mark); err != nil {
		t.Fatal(err)
	}
	if groups, err := h.Groups("/"); err != nil || !reflect.DeepEqual(groups, []string{"/", "/a"}) {
		t.Error(groups, err)
	}
	if err := h.UndoTo(mark + 1); !errors.Is(err, syscall.ENODATA) {
		t.Error(err)
	}
	if err := h.Reset(); err != nil {
		t.Fatal(err)
	}
	if groups, err := h.Groups("/"); err != nil || !reflect.DeepEqual(groups, []string{"/"}) {
		t.Error(groups, err)
	}
}

func TestForget(t *testing.T) {
	h := open(t)
	do(t, h, "mkdir /a", "fork 1 2", "write /a cgroup.procs 2")
	if err := h.Forget(); err != nil {
		t.Fatal(err)
	}
	if depth, err := h.Depth(); err != nil || depth != 0 {
		t.Error(depth, err)
	}
	if _, err := h.Undo(); !errors.Is(err, syscall.ENODATA) {
		t.Error(err)
	}
	if current, err := h.Current("/a"); err != nil || current != 1 {
		t.Error(current, err)
	}
	h.Close()
	if err := h.Forget(); !errors.Is(err, ErrClosed) {
		t.Error(err)
	}
}

// What a call copies for C is freed with it: the paths and names of these calls would take more memory than the bound.
func TestCallsWithAPathLeaveNoMemory(t *testing.T) {
	h := open(t)
	f := h.FS()
	long := strings.Repeat("x", 200_000)
	use := func(rounds int) {
		for i := 0; i < rounds; i++ {
			_, current := h.Current("/" + long)
			_, pids := h.Processes(long)
			_, _, limit := h.Limit(long)
			_, text := f.ReadFile(long + "/pids.max")
			for _, err := range []error{current, pids, limit, text, h.Fail(long, 1, syscall.EIO), h.Vanish(long, 1), f.WriteFile(long+"/pids.max", nil), f.WriteFile(long, nil)} {
				if err == nil {
					t.Fatal("no error")
				}
			}
		}
	}
	use(20)
	before := memory(t)
	use(200)
	// each kind of call alone takes 40,000,000 bytes
	if grown := memory(t) - before; grown > 30_000_000 {
		t.Errorf("%d bytes more", grown)
	}
}
