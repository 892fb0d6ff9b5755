// A monitor that watches pids.events, tested with a fork that a limit refuses. In a service it would poll the file below
// /sys/fs/cgroup and send its text.
package main

import (
	"context"
	"errors"
	"fmt"
	"os"
	"syscall"
	"time"

	"makhloeum"
)

const patience = 10 * time.Second

// refusals counts the forks that were refused in a group, from the texts of its pids.events, and reports each new count.
func refusals(texts <-chan string, report func(count int)) error {
	before := 0
	for text := range texts {
		var count int
		if _, err := fmt.Sscanf(text, "max %d\n", &count); err != nil {
			return err
		}
		if count > before {
			report(count)
		}
		before = count
	}
	return nil
}

// start makes a service whose two processes are as many as its limit allows.
func start(h *makhloeum.Hierarchy) error {
	if err := h.Mkdir("/service"); err != nil {
		return err
	}
	if err := h.Write("/service", "pids.max", "2"); err != nil {
		return err
	}
	if err := h.Write("/service", "cgroup.procs", "1"); err != nil {
		return err
	}
	return h.Fork(1, 2)
}

func run() error {
	h, err := makhloeum.New()
	if err != nil {
		return err
	}
	defer h.Close()
	if err := start(h); err != nil {
		return err
	}
	ctx, cancel := context.WithTimeout(context.Background(), patience)
	defer cancel()
	texts, failed := h.Watch(ctx, "/service", "pids.events"), make(chan error)
	go func() {
		failed <- refusals(texts, func(count int) {
			fmt.Printf("refused forks: %d\n", count)
			cancel()
		})
	}()
	if err := h.Fork(1, 3); !errors.Is(err, syscall.EAGAIN) {
		return fmt.Errorf("not refused: %v", err)
	}
	return <-failed
}

func main() {
	if err := run(); err != nil {
		fmt.Fprintln(os.Stderr, err)
		os.Exit(1)
	}
}
