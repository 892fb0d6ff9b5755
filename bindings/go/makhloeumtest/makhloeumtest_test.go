package makhloeumtest_test

import (
	"errors"
	"fmt"
	"reflect"
	"runtime"
	"testing"

	"makhloeum"
	"makhloeum/makhloeumtest"
)

func TestAHierarchyIsClosedAtTheEndOfItsTest(t *testing.T) {
	var kept *makhloeum.Hierarchy
	t.Run("inner", func(t *testing.T) {
		kept = makhloeumtest.New(t)
		makhloeumtest.Do(t, kept, "mkdir /a", "fork 1 2", "write /a cgroup.procs 2")
		if pids, err := kept.Processes("/a"); err != nil || len(pids) != 1 || pids[0] != 2 {
			t.Error(pids, err)
		}
	})
	if err := kept.Mkdir("/b"); !errors.Is(err, makhloeum.ErrClosed) {
		t.Error(err)
	}
}

func TestATestMayCloseItsHierarchy(t *testing.T) {
	passed := t.Run("inner", func(t *testing.T) {
		if err := makhloeumtest.New(t).Close(); err != nil {
			t.Error(err)
		}
	})
	if !passed {
		t.Error("the second Close failed the test")
	}
}

// ending is a test that keeps why it ends, and how often it was told that its caller is a helper.
type ending struct {
	testing.TB
	said    string
	helpers int
}

func (e *ending) Helper() { e.helpers++ }

func (e *ending) Fatal(args ...interface{}) {
	e.said = fmt.Sprint(args...)
	runtime.Goexit()
}

func TestTheFirstRefusedLineEndsTheTest(t *testing.T) {
	h := makhloeumtest.New(t)
	inner, done := &ending{TB: t}, make(chan bool)
	go func() {
		defer close(done)
		makhloeumtest.Do(inner, h, "mkdir /a", "mkdir /a", "mkdir /b")
	}()
	<-done
	if inner.said != "mkdir /a: file exists (exists)" || inner.helpers != 1 {
		t.Error(inner.said, inner.helpers)
	}
	if groups, err := h.Groups("/"); err != nil || !reflect.DeepEqual(groups, []string{"/", "/a"}) {
		t.Error(groups, err)
	}
}

// A failure is that of the line of the test, not of the package.
func TestNewIsAHelper(t *testing.T) {
	inner := &ending{TB: t}
	if _, err := makhloeumtest.New(inner).Undo(); err == nil || inner.helpers != 1 {
		t.Error(err, inner.helpers)
	}
}
