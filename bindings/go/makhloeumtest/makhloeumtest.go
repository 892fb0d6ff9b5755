// Package makhloeumtest has a hierarchy of process groups for a test.
//
//	func TestManager(t *testing.T) {
//		h := makhloeumtest.New(t)
//		makhloeumtest.Do(t, h, "mkdir /a", "fork 1 2", "write /a cgroup.procs 2")
//		..
//	}
package makhloeumtest

import (
	"testing"

	"makhloeum"
)

// New makes a hierarchy that is closed when the test t ends, if the test hasn't closed it. It ends the test if there is no memory.
func New(t testing.TB) *makhloeum.Hierarchy {
	t.Helper()
	h, err := makhloeum.New()
	if err != nil {
		t.Fatal(err)
	}
	t.Cleanup(func() { h.Close() }) // the error is that the test closed it
	return h
}

// Do answers lines of the trace language in the hierarchy h, and ends the test t at the first that is refused.
func Do(t testing.TB, h *makhloeum.Hierarchy, lines ...string) {
	t.Helper()
	for _, line := range lines {
		if _, err := h.Line(line); err != nil {
			t.Fatal(err)
		}
	}
}
