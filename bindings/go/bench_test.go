package makhloeum

import (
	"fmt"
	"os"
	"testing"
)

func BenchmarkCat(b *testing.B) {
	h := open(b)
	do(b, h, "mkdir /a", "fork 1 2", "write /a cgroup.procs 2")
	b.ResetTimer()
	for i := 0; i < b.N; i++ {
		if _, err := h.Read("/a", "pids.current"); err != nil {
			b.Fatal(err)
		}
	}
}

func BenchmarkForkAndUndo(b *testing.B) {
	h := open(b)
	for i := 0; i < b.N; i++ {
		if err := h.Fork(1, 2); err != nil {
			b.Fatal(err)
		}
		if _, err := h.Undo(); err != nil {
			b.Fatal(err)
		}
	}
}

func BenchmarkCurrent(b *testing.B) {
	h := open(b)
	do(b, h, "mkdir /a", "fork 1 2", "write /a cgroup.procs 2")
	b.ResetTimer()
	for i := 0; i < b.N; i++ {
		if _, err := h.Current("/a"); err != nil {
			b.Fatal(err)
		}
	}
}

// A sweep over 1,024 groups beside 100,000 processes, in one call. It takes a thousand times as long as the others, so it runs for
// bindings/bench alone.
func BenchmarkSweep(b *testing.B) {
	const groups, processes = slots, 100_000
	if os.Getenv("MAKHLOEUM_SWEEP") == "" {
		b.Skip("MAKHLOEUM_SWEEP is not set")
	}
	h := open(b)
	var files []File
	for i := 0; i < groups; i++ {
		files = append(files, File{fmt.Sprint("/g", i), "pids.current"})
		do(b, h, "mkdir "+files[i].Path)
	}
	for pid := 2; pid < processes+2; pid++ {
		do(b, h, fmt.Sprint("fork 1 ", pid), fmt.Sprintf("write %s cgroup.procs %d", files[pid%groups].Path, pid))
	}
	b.ResetTimer()
	for i := 0; i < b.N; i++ {
		if _, err := h.ReadMany(files); err != nil {
			b.Fatal(err)
		}
	}
}
