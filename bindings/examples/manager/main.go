// A manager of containers whose goroutines share one hierarchy: each starts a container in a group of its own, lets it fork
// until its limit refuses, kills it and removes its group.
package main

import (
	"errors"
	"fmt"
	"os"
	"sync"
	"syscall"

	"makhloeum"
)

const containers, limit = 8, 5

// life runs one container and returns how many processes it had when a fork was refused.
func life(h *makhloeum.Hierarchy, number int) (int, error) {
	group := fmt.Sprint("/containers/", number)
	first := 100 * (number + 1)
	if err := h.Mkdir(group); err != nil {
		return 0, err
	}
	if err := h.Write(group, "pids.max", fmt.Sprint(limit)); err != nil {
		return 0, err
	}
	if err := h.Fork(1, first); err != nil {
		return 0, err
	}
	if err := h.Write(group, "cgroup.procs", fmt.Sprint(first)); err != nil {
		return 0, err
	}
	for pid := first + 1; ; pid++ {
		err := h.Fork(first, pid)
		if errors.Is(err, syscall.EAGAIN) {
			break
		}
		if err != nil {
			return 0, err
		}
	}
	current, err := h.Current(group)
	if err != nil {
		return 0, err
	}
	if err := h.Write(group, "cgroup.kill", "1"); err != nil {
		return 0, err
	}
	return current, h.Rmdir(group)
}

func run() error {
	h, err := makhloeum.New()
	if err != nil {
		return err
	}
	defer h.Close()
	if err := h.Mkdir("/containers"); err != nil {
		return err
	}
	var all sync.WaitGroup
	counts, failures := make([]int, containers), make([]error, containers)
	for i := 0; i < containers; i++ {
		all.Add(1)
		go func(i int) {
			defer all.Done()
			counts[i], failures[i] = life(h, i)
		}(i)
	}
	all.Wait()
	for i, err := range failures {
		if err != nil {
			return err
		}
		fmt.Printf("container %d: %d\n", i, counts[i])
	}
	refused, err := h.Read("/containers", "pids.events")
	if err != nil {
		return err
	}
	fmt.Printf("refused forks: %s", refused)
	return nil
}

func main() {
	if err := run(); err != nil {
		fmt.Fprintln(os.Stderr, err)
		os.Exit(1)
	}
}
