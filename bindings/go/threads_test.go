package makhloeum

import (
	"errors"
	"fmt"
	"os"
	"reflect"
	"runtime/debug"
	"strconv"
	"strings"
	"sync"
	"sync/atomic"
	"testing"
	"time"
)

const sharing = 4

// seconds is how long a test with goroutines runs: MAKHLOEUM_SECONDS, or ten.
func seconds(t *testing.T, most float64) time.Duration {
	long := 10.0
	if text := os.Getenv("MAKHLOEUM_SECONDS"); text != "" {
		given, err := strconv.ParseFloat(text, 64)
		if err != nil {
			t.Fatal(err)
		}
		long = given
	}
	if long > most {
		long = most
	}
	return time.Duration(long * float64(time.Second))
}

// together runs body in goroutines until the time is over or one returns an error.
func together(t *testing.T, long time.Duration, body func(number int, stopped *atomic.Bool) error) {
	t.Helper()
	var stopped atomic.Bool
	var all sync.WaitGroup
	failures := make(chan error, sharing)
	for number := 0; number < sharing; number++ {
		all.Add(1)
		go func(number int) {
			defer all.Done()
			if err := body(number, &stopped); err != nil {
				failures <- err
			}
		}(number)
	}
	select {
	case err := <-failures:
		t.Error(err)
	case <-time.After(long):
	}
	stopped.Store(true)
	all.Wait()
	close(failures)
	for err := range failures {
		t.Error(err)
	}
}

// expect is the first thing that was not as it should be.
type expect struct{ err error }

func (e *expect) done(err error) {
	if e.err == nil {
		e.err = err
	}
}

func (e *expect) is(want, got interface{}, err error) {
	if e.err == nil && (err != nil || !reflect.DeepEqual(want, got)) {
		e.err = fmt.Errorf("%q, %v; not %q", got, err, want)
	}
}

func TestEachGoroutineInItsOwnGroup(t *testing.T) {
	h := open(t)
	together(t, seconds(t, 60), func(number int, stopped *atomic.Bool) error {
		var e expect
		group, first := fmt.Sprint("/t", number), 100+number
		child := 10 * first
		e.done(h.Mkdir(group))
		e.done(h.Fork(1, first))
		e.done(h.Write(group, "cgroup.procs", strconv.Itoa(first)))
		rounds := 0
		for ; !stopped.Load() && e.err == nil; rounds++ {
			e.done(h.Fork(first, child))
			text, err := h.Read(group, "pids.current")
			e.is("2\n", text, err)
			text, err = h.Read(group, "cgroup.procs")
			e.is(fmt.Sprintf("%d\n%d\n", first, child), text, err)
			e.done(h.Write(group, "pids.max", "2"))
			var refused *Refused
			if err := h.Fork(first, child+1); !errors.As(err, &refused) || refused.Code != PidsMax {
				e.done(fmt.Errorf("fork: %v", err))
			}
			text, err = h.Where(child)
			e.is("0::"+group+"\n", text, err)
			e.done(h.Mkdir(group + "/below"))
			names, err := h.Children(group)
			e.is([]string{"below"}, names, err)
			groups, err := h.Groups(group)
			e.is([]string{group, group + "/below"}, groups, err)
			e.done(h.Rmdir(group + "/below"))
			e.done(h.Write(group, "pids.max", "max"))
			e.done(h.Exit(child))
		}
		text, err := h.Read(group, "pids.events")
		e.is(fmt.Sprintf("max %d\n", rounds), text, err)
		return e.err
	})
}

func TestAnythingAtOnceCanBeUndone(t *testing.T) {
	h := open(t)
	lines := []string{"mkdir /a", "mkdir /a/b", "rmdir /a/b", "fork 1 2", "fork 1 3", "exit 3", "write /a/b cgroup.procs 2", "undo",
		"write /a pids.max 1", "write /a cgroup.kill 1", "cat /a pids.current", "undo", "rmdir /a", "where 2"}
	together(t, seconds(t, 3), func(number int, stopped *atomic.Bool) error {
		for seed := uint32(number + 1); !stopped.Load(); seed = seed*1103515245 + 12345 {
			_, err := h.Line(lines[int(seed>>16)%len(lines)])
			var refused *Refused
			if err != nil && !errors.As(err, &refused) {
				return err
			}
		}
		return nil
	})
	depth, err := h.Depth()
	if err != nil {
		t.Fatal(err)
	}
	for ; depth > 0; depth-- {
		if _, err := h.Undo(); err != nil {
			t.Fatal(err)
		}
	}
	groups, err := h.Groups("/")
	if err != nil || !reflect.DeepEqual(groups, []string{"/"}) {
		t.Error(groups, err)
	}
	text, err := h.Read("/", "cgroup.procs")
	says(t, "1\n", text, err)
}

func TestACloseEndsAllCalls(t *testing.T) {
	for round := 0; round < 200; round++ {
		h, err := New()
		if err != nil {
			t.Fatal(err)
		}
		var closed atomic.Bool
		go func() {
			time.Sleep(2 * time.Millisecond)
			h.Close()
			closed.Store(true)
		}()
		together(t, 3*time.Millisecond, func(number int, _ *atomic.Bool) error {
			path := fmt.Sprint("/t", number)
			for {
				was := closed.Load()
				err := h.Mkdir(path)
				if err == nil && !was {
					err = h.Rmdir(path)
				}
				if errors.Is(err, ErrClosed) {
					return nil
				}
				if err != nil || was {
					return fmt.Errorf("closed %v: %v", was, err)
				}
			}
		})
	}
}

// The memory of this process that is resident, in bytes. What Go's heap has free is returned before: at a high load it is more than
// what a leak would take.
func memory(t *testing.T) int {
	t.Helper()
	debug.FreeOSMemory()
	text, err := os.ReadFile("/proc/self/statm")
	if err != nil {
		t.Fatal(err)
	}
	pages, err := strconv.Atoi(strings.Fields(string(text))[1])
	if err != nil {
		t.Fatal(err)
	}
	return pages * os.Getpagesize()
}

// newWithGroup returns a hierarchy with a group, that the test closes or forgets.
func newWithGroup(t *testing.T) *Hierarchy {
	h, err := New()
	if err != nil {
		t.Fatal(err)
	}
	if err := h.Mkdir("/a"); err != nil {
		t.Fatal(err)
	}
	return h
}

func TestAClosedHierarchyLeavesNoMemory(t *testing.T) {
	use := func(rounds int) {
		for i := 0; i < rounds; i++ {
			newWithGroup(t).Close()
		}
	}
	use(100)
	before := memory(t)
	use(1000)
	// an engine takes more than 100,000 bytes
	if grown := memory(t) - before; grown > 20_000_000 {
		t.Errorf("%d bytes more", grown)
	}
}
