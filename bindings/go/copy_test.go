package makhloeum

import (
	"errors"
	"fmt"
	"reflect"
	"sync/atomic"
	"syscall"
	"testing"
)

func copied(t testing.TB, h *Hierarchy) *Hierarchy {
	other, err := h.Copy()
	if err != nil {
		t.Fatal(err)
	}
	closeAtEnd(t, other)
	return other
}

// story is all that a hierarchy tells, errors included.
func story(t testing.TB, h *Hierarchy) []string {
	groups, err := h.Groups("/")
	if err != nil {
		t.Fatal(err)
	}
	depth, err := h.Depth()
	if err != nil {
		t.Fatal(err)
	}
	told := []string{fmt.Sprint(depth)}
	for _, group := range groups {
		for _, file := range files {
			text, err := h.Read(group, file.name)
			told = append(told, fmt.Sprint(group, file.name, text, err))
		}
	}
	for pid := 1; pid < 10; pid++ {
		text, err := h.Where(pid)
		told = append(told, fmt.Sprint(text, err))
	}
	return told
}

func filled(t testing.TB) *Hierarchy {
	h := open(t)
	do(t, h, "mkdir /a", "mkdir /a/b", "mkdir /c", "fork 1 2", "fork 1 3", "fork 1 4", "write /a/b cgroup.procs 2",
		"write /c cgroup.procs 3", "write /a pids.max 1")
	if err := h.Fork(2, 5); !errors.Is(err, syscall.EAGAIN) {
		t.Fatal(err)
	}
	do(t, h, "exit 4", "write /c cgroup.kill 1", "rmdir /c")
	return h
}

func TestCopyHasTheSameAnswers(t *testing.T) {
	h := filled(t)
	same := copied(t, h)
	for undone := 0; ; undone++ {
		if !reflect.DeepEqual(story(t, h), story(t, same)) {
			t.Fatal(undone, story(t, h), story(t, same))
		}
		text, err := h.Undo()
		other, otherErr := same.Undo()
		if text != other || fmt.Sprint(err) != fmt.Sprint(otherErr) {
			t.Fatal(text, err, other, otherErr)
		}
		if errors.Is(err, syscall.ENODATA) {
			if undone != 13 {
				t.Error(undone)
			}
			return
		}
	}
}

func TestChangesOfOneDoNotReachTheOther(t *testing.T) {
	h := filled(t)
	if err := h.Fail("/a", 1, syscall.EIO); err != nil {
		t.Fatal(err)
	}
	other := copied(t, h)
	if left, err := other.ClearFaults(); err != nil || left != 0 {
		t.Error(left, err)
	}
	if left, err := h.ClearFaults(); err != nil || left != 1 {
		t.Error(left, err)
	}
	if changes, err := other.Changes(); err != nil || changes != 0 {
		t.Error(changes, err)
	}
	before := story(t, h)
	do(t, other, "mkdir /d", "fork 1 9")
	if err := other.Reset(); err != nil {
		t.Fatal(err)
	}
	if !reflect.DeepEqual(before, story(t, h)) {
		t.Error(before, story(t, h))
	}
	do(t, h, "mkdir /e")
	h.Close()
	if groups, err := other.Groups("/"); err != nil || !reflect.DeepEqual(groups, []string{"/"}) {
		t.Error(groups, err)
	}
	if _, err := h.Copy(); !errors.Is(err, ErrClosed) {
		t.Error(err)
	}
}

// Copies that nobody closes are freed by the garbage collector, and goroutines that copy wait for nobody for ever.
func TestCopiesWhileGoroutinesChange(t *testing.T) {
	two := [2]*Hierarchy{open(t), open(t)}
	var copies atomic.Int64
	together(t, seconds(t, 2), func(number int, stopped *atomic.Bool) error {
		h := two[number%2]
		path := fmt.Sprintf("/t%d", number)
		for !stopped.Load() || copies.Load() == 0 {
			if err := h.Mkdir(path); err != nil {
				return err
			}
			if err := h.Rmdir(path); err != nil {
				return err
			}
			other, err := two[1-number%2].Copy()
			if err != nil {
				return err
			}
			if err := other.Reset(); err != nil {
				return err
			}
			if depth, err := other.Depth(); err != nil || depth != 0 {
				return fmt.Errorf("%d %v", depth, err)
			}
			copies.Add(1)
			if err := h.Forget(); err != nil {
				return err
			}
		}
		return nil
	})
	finalize(t)
}
