package makhloeum

import (
	"context"
	"errors"
	"fmt"
	"os"
	"runtime"
	"strings"
	"syscall"
	"testing"
	"time"
)

// patience is how long a test waits for what has to come: as long as a busy machine may take, or less with FAIL_FAST.
var patience = func() time.Duration {
	if os.Getenv("FAIL_FAST") != "" {
		return 15 * time.Second
	}
	return 300 * time.Second
}()

// next is the next text of a watch; the end is "closed".
func next(t *testing.T, texts <-chan string) string {
	t.Helper()
	select {
	case text, ok := <-texts:
		if !ok {
			return "closed"
		}
		return text
	case <-time.After(patience):
		t.Fatal("no text")
		return ""
	}
}

func TestAWatchSendsEachText(t *testing.T) {
	h := open(t)
	do(t, h, "mkdir /a", "write /a pids.max 2", "write /a cgroup.procs 1", "fork 1 2")
	texts := h.Watch(context.Background(), "/a", "pids.events")
	says(t, "max 0\n", next(t, texts), nil)
	do(t, h, "write /a pids.max 2") // changes the hierarchy, but not the file
	select {
	case text := <-texts:
		t.Error(text)
	case <-time.After(80 * time.Millisecond):
	}
	if err := h.Fork(1, 3); !errors.Is(err, syscall.EAGAIN) {
		t.Fatal(err)
	}
	says(t, "max 1\n", next(t, texts), nil)
	do(t, h, "write /a cgroup.kill 1", "rmdir /a")
	says(t, "closed", next(t, texts), nil)
}

func TestAWatchOfALongFile(t *testing.T) {
	h := open(t)
	do(t, h, "mkdir /a")
	texts := h.Watch(context.Background(), "/a", "cgroup.procs")
	says(t, "", next(t, texts), nil)
	do(t, h, "write /a cgroup.procs 1")
	says(t, "1\n", next(t, texts), nil)
	want := "1\n"
	for _, pid := range []string{"4000001", "4000002", "4000003"} {
		do(t, h, "fork 1 "+pid)
		want += pid + "\n"
	}
	for text := next(t, texts); text != want; text = next(t, texts) {
		if !strings.HasPrefix(want, text) {
			t.Fatal(text)
		}
	}
	h.Close()
	says(t, "closed", next(t, texts), nil)
}

// The memory of a text is as large as the calls are told that it is.
func TestAWatchOfAFileThatGrows(t *testing.T) {
	h := open(t)
	do(t, h, "mkdir /a", "write /a cgroup.procs 1")
	ctx, stop := context.WithCancel(context.Background())
	texts := h.Watch(ctx, "/a", "cgroup.procs")
	says(t, "1\n", next(t, texts), nil)
	lines, text := 1, ""
	for _, more := range []int{700, 700, 1400, 2800} {
		for ; more > 0; more-- {
			if err := h.Fork(1, 4000000+lines); err != nil {
				t.Fatal(err)
			}
			lines++
		}
		for strings.Count(text, "\n") != lines {
			text = next(t, texts)
		}
	}
	stop()
	says(t, "closed", next(t, texts), nil)
}

// More room keeps the text that was seen, which isn't sent again.
func TestMoreRoomKeepsTheTextThatWasSeen(t *testing.T) {
	h := open(t)
	do(t, h, "mkdir /a")
	w := newWatch(h, "/a", "pids.max")
	defer w.free()
	text, _ := w.next(context.Background())
	says(t, "max\n", text, nil)
	w.grow(1)
	w.grow(5000)
	ctx, stop := context.WithTimeout(context.Background(), 2*slice)
	defer stop()
	if text, ok := w.next(ctx); ok {
		t.Errorf("%q once more", text)
	}
	do(t, h, "write /a pids.max 7")
	text, _ = w.next(context.Background())
	says(t, "7\n", text, nil)
}

// The rooms that became too small would take a page of memory each.
func TestMoreRoomLeavesNoMemory(t *testing.T) {
	h := open(t)
	use := func(rounds int) {
		for i := 0; i < rounds; i++ {
			w := newWatch(h, "/a", "pids.max")
			w.grow(200_000)
			w.grow(1)
			w.free()
		}
	}
	use(500)
	before := memory(t)
	use(10_000)
	if grown := memory(t) - before; grown > 15_000_000 {
		t.Errorf("%d bytes more", grown)
	}
}

func TestAWatchEndsWithItsContextAndWithoutAFile(t *testing.T) {
	h := open(t)
	do(t, h, "mkdir /a")
	ctx, cancel := context.WithCancel(context.Background())
	texts := h.Watch(ctx, "/a", "cgroup.events")
	says(t, "populated 0\nfrozen 0\n", next(t, texts), nil)
	began := time.Now()
	cancel()
	says(t, "closed", next(t, texts), nil)
	// on the busiest machine it has looked at its context a few hundred times by then
	if took := time.Since(began); took > 400*slice {
		t.Errorf("a watch ends %v after its context", took)
	}
	// nobody reads the first text
	ctx, cancel = context.WithTimeout(context.Background(), 30*time.Millisecond)
	defer cancel()
	unread := h.Watch(ctx, "/a", "cgroup.events")
	<-ctx.Done()
	for text := next(t, unread); text != "closed"; text = next(t, unread) {
		says(t, "populated 0\nfrozen 0\n", text, nil)
	}
	// nobody ever reads them
	before := runtime.NumGoroutine()
	ctx, cancel = context.WithTimeout(context.Background(), 200*time.Millisecond)
	defer cancel()
	for i := 0; i < 20; i++ {
		h.Watch(ctx, "/a", "cgroup.events")
	}
	for end := time.Now().Add(patience); runtime.NumGoroutine() > before; time.Sleep(time.Millisecond) {
		if time.Now().After(end) {
			t.Fatal("a watch goes on that nobody reads")
		}
	}
	for _, row := range [][2]string{{"/none", "cgroup.events"}, {"a", "cgroup.events"}, {"/a", "none"}, {"/a", "cgroup.kill"}, {"/a\x00", "x\x00"}, {"/a", "pids.max\x00x"}} {
		says(t, "closed", next(t, h.Watch(context.Background(), row[0], row[1])), nil)
	}
	// a fault doesn't count a watch
	if err := h.Fail("/a", 1, syscall.EIO); err != nil {
		t.Fatal(err)
	}
	ctx, stop := context.WithCancel(context.Background())
	defer stop()
	says(t, "populated 0\nfrozen 0\n", next(t, h.Watch(ctx, "/a", "cgroup.events")), nil)
	if left, err := h.ClearFaults(); err != nil || left != 1 {
		t.Error(left, err)
	}
}

// The texts, paths and names of files of these watches would take more memory than the bound.
func TestAWatchThatHasEndedLeavesNoMemory(t *testing.T) {
	h := open(t)
	const last = 4_010_000
	do(t, h, "mkdir /a", "write /a cgroup.procs 1")
	want := "1\n"
	for pid := 4_000_000; pid < last; pid++ {
		if err := h.Fork(1, pid); err != nil {
			t.Fatal(err)
		}
		want += fmt.Sprintln(pid)
	}
	long := strings.Repeat("x", len(want))
	use := func(rounds int) {
		for i := 0; i < rounds; i++ {
			ctx, stop := context.WithCancel(context.Background())
			texts := h.Watch(ctx, "/a", "cgroup.procs")
			says(t, want, next(t, texts), nil)
			// a change, so that the watch doesn't wait when its context ends
			do(t, h, fmt.Sprint("fork 1 ", last))
			stop()
			for next(t, texts) != "closed" {
			}
			do(t, h, fmt.Sprint("exit ", last))
			// what is no path or no file ends a watch by itself
			says(t, "closed", next(t, h.Watch(context.Background(), "/a", long)), nil)
			says(t, "closed", next(t, h.Watch(context.Background(), long, "pids.max")), nil)
		}
	}
	use(100)
	before := memory(t)
	use(500)
	// the texts alone take 40,000,000 bytes, and so do the paths and the names
	if grown := memory(t) - before; grown > 20_000_000 {
		t.Errorf("%d bytes more", grown)
	}
}

// endsWith fails the test unless a wait that may take the time ahead has ended with the error.
func endsWith(t *testing.T, want error, ended <-chan error, ahead time.Duration) {
	t.Helper()
	select {
	case err := <-ended:
		if !errors.Is(err, want) {
			t.Error(ahead, err)
		}
	case <-time.After(patience):
		t.Fatal(ahead, "no end")
	}
}

// Wait promises its end within 50 ms of that of its context, so no call of C may take longer.
func TestHowLongACallOfAWaitTakes(t *testing.T) {
	if slice != 50*time.Millisecond {
		t.Error(slice)
	}
}

func TestHowManyMillisecondsACallWaits(t *testing.T) {
	for left, want := range map[time.Duration]uint32{
		-time.Hour: 0, -1: 0, 0: 0, 1: 1, time.Microsecond: 1, time.Millisecond - 1: 1, time.Millisecond: 1, time.Millisecond + 1: 2,
		10 * time.Millisecond: 10, 49*time.Millisecond + 1: 50, slice: 50,
	} {
		if got := milliseconds(left); got != want {
			t.Errorf("%v: %d, not %d", left, got, want)
		}
	}
}

func TestAWaitReturnsAtItsDeadline(t *testing.T) {
	h := open(t)
	for _, ahead := range []time.Duration{-time.Hour, 0, time.Microsecond, 70 * time.Millisecond} {
		ended := make(chan error)
		go func() {
			ctx, cancel := context.WithDeadline(context.Background(), time.Now().Add(ahead))
			defer cancel()
			_, err := h.Wait(ctx, 0)
			ended <- err
		}()
		endsWith(t, context.DeadlineExceeded, ended, ahead)
	}
}

// A context that is cancelled ends a wait long before its deadline.
func TestAWaitEndsWithItsContext(t *testing.T) {
	h := open(t)
	for _, ahead := range []time.Duration{time.Hour, 1000 * time.Hour} {
		ctx, cancel := context.WithTimeout(context.Background(), ahead)
		ended := make(chan error)
		go func() {
			_, err := h.Wait(ctx, 0)
			ended <- err
		}()
		cancel()
		endsWith(t, context.Canceled, ended, ahead)
	}
}

// finalize collects what nothing refers to, and waits until a finalizer that was due with the others has run.
func finalize(t *testing.T) {
	t.Helper()
	ran := make(chan bool)
	runtime.SetFinalizer(&[64]byte{}, func(*[64]byte) { close(ran) })
	runtime.GC()
	select {
	case <-ran:
	case <-time.After(patience):
		t.Fatal("no finalizer runs")
	}
}

// A hierarchy that nothing refers to any more is freed: the memory of many would be more than this.
func TestAForgottenHierarchyIsFreed(t *testing.T) {
	first := newWithGroup(t)
	defer first.Close()
	forget := func(rounds int) {
		for i := 0; i < rounds; i++ {
			if i%2 == 0 {
				newWithGroup(t)
			} else if _, err := first.Copy(); err != nil {
				t.Fatal(err)
			}
			if i%50 == 0 {
				finalize(t)
			}
		}
	}
	forget(200)
	before := memory(t)
	forget(2000)
	// an engine takes more than 100,000 bytes
	if grown := memory(t) - before; grown > 60_000_000 {
		t.Errorf("%d bytes more", grown)
	}
}
