// Modelling plays sequences of calls from standard input and prints the result of each, as driver.c does.
package main

import (
	"bufio"
	"context"
	"errors"
	"fmt"
	"os"
	"strconv"
	"strings"
	"sync"
	"syscall"
	"time"

	"makhloeum"
)

const (
	handleCount = 4
	waitLimit   = time.Minute
)

var (
	handles [handleCount]*makhloeum.Hierarchy
	waiters = map[string]waiter{}
)

type waiter struct {
	h    *makhloeum.Hierarchy
	seen uint64
	told chan string
}

func encoded(text string) string {
	var out strings.Builder
	for i := 0; i < len(text); i++ {
		c := text[i]
		if c >= '0' && c <= '9' || c >= 'A' && c <= 'Z' || c >= 'a' && c <= 'z' || strings.IndexByte("/._-", c) >= 0 {
			out.WriteByte(c)
		} else {
			fmt.Fprintf(&out, "%%%02X", c)
		}
	}
	return out.String()
}

func decoded(word string) string {
	if word == "%" {
		return ""
	}
	var out strings.Builder
	for i := 0; i < len(word); i++ {
		if word[i] != '%' {
			out.WriteByte(word[i])
			continue
		}
		c, err := strconv.ParseUint(word[i+1:i+3], 16, 8)
		if err != nil {
			panic(err)
		}
		out.WriteByte(byte(c))
		i += 2
	}
	return out.String()
}

func listed(texts []string) string {
	all := make([]string, len(texts))
	for i, it := range texts {
		all[i] = encoded(it)
	}
	return strings.Join(all, ",")
}

func number(word string) int {
	n, err := strconv.Atoi(word)
	if err != nil {
		panic(err)
	}
	return n
}

// ofError is the result of a call that failed.
func ofError(err error, withReply bool) string {
	var refused *makhloeum.Refused
	var errno syscall.Errno
	switch {
	case errors.As(err, &refused):
		told := fmt.Sprintf("no %d %d", uint32(refused.Code), uintptr(refused.Errno()))
		if !withReply {
			return told
		}
		reply := refused.Reply
		if refused.Code == makhloeum.BadPath { // what is wrong with a path is more than the model says
			reply = strings.SplitN(reply, ":", 2)[0]
		}
		return told + " " + encoded(reply)
	case errors.Is(err, makhloeum.ErrClosed):
		return "closed"
	case errors.Is(err, context.DeadlineExceeded):
		return "timeout"
	case errors.As(err, &errno):
		return fmt.Sprintf("failed %d", uintptr(errno))
	}
	return err.Error()
}

func result(value interface{}, err error) string {
	if err != nil {
		return ofError(err, true)
	}
	return fmt.Sprint("ok ", value)
}

func text(value string, err error) string { return result(encoded(value), err) }

func list(values []string, err error) string { return result(listed(values), err) }

func truth(value bool, err error) string {
	if value {
		return result(1, err)
	}
	return result(0, err)
}

func done(err error) string {
	if err != nil {
		return ofError(err, true)
	}
	return "ok"
}

// history returns the texts that undos show in a copy.
func history(h *makhloeum.Hierarchy, place int) ([]string, error) {
	other, err := h.Copy()
	if err != nil {
		return nil, err
	}
	depth, err := other.Depth()
	if err != nil {
		return nil, err
	}
	var texts []string
	for ; depth > place; depth-- {
		text, err := other.Undo()
		if err != nil {
			return nil, err
		}
		texts = append([]string{text}, texts...)
	}
	return texts, other.Close()
}

func limit(value int, ok bool, err error) string {
	if err == nil && !ok {
		return "ok max"
	}
	return result(value, err)
}

func processes(h *makhloeum.Hierarchy, path string) string {
	pids, err := h.Processes(path)
	var texts []string
	for _, pid := range pids {
		texts = append(texts, strconv.Itoa(pid))
	}
	return result(strings.Join(texts, ","), err)
}

func many(h *makhloeum.Hierarchy, words []string) string {
	var files []makhloeum.File
	for i := 0; i < len(words); i += 2 {
		files = append(files, makhloeum.File{Path: words[i], Name: words[i+1]})
	}
	texts, err := h.ReadMany(files)
	if err != nil {
		return ofError(err, true)
	}
	var all []string
	for _, it := range texts {
		if it.Err != nil {
			all = append(all, ofError(it.Err, false))
		} else {
			all = append(all, "ok "+encoded(it.Text))
		}
	}
	return "ok " + strings.Join(all, ";")
}

// undoTo returns how many commands were undone, which only C and Python say.
func undoTo(h *makhloeum.Hierarchy, mark int) string {
	before, err := h.Depth()
	if err != nil {
		return ofError(err, true)
	}
	return result(before-mark, h.UndoTo(mark))
}

func wait(h *makhloeum.Hierarchy, seen uint64, long time.Duration) string {
	ctx, cancel := context.WithTimeout(context.Background(), long)
	defer cancel()
	return result(h.Wait(ctx, seen))
}

func beginWaiter(h *makhloeum.Hierarchy, name string) string {
	seen, err := h.Changes()
	if _, ok := waiters[name]; ok && err == nil {
		return "taken"
	}
	if err == nil {
		it := waiter{h, seen, make(chan string, 1)}
		waiters[name] = it
		go func() { it.told <- wait(h, seen, waitLimit) }()
	}
	return done(err)
}

func joinWaiter(name string) string {
	it, ok := waiters[name]
	if !ok {
		return "none"
	}
	if changes, err := it.h.Changes(); err == nil && changes == it.seen {
		return "waits"
	}
	delete(waiters, name)
	return <-it.told
}

// split cuts words at those that are the separator.
func split(words []string, separator string) [][]string {
	parts := [][]string{nil}
	for _, it := range words {
		if it == separator {
			parts = append(parts, nil)
		} else {
			parts[len(parts)-1] = append(parts[len(parts)-1], it)
		}
	}
	return parts
}

func together(h *makhloeum.Hierarchy, words []string) string {
	depth, err := h.Depth()
	if err != nil {
		return ofError(err, true)
	}
	threads := split(words, "||")
	told := make([]string, len(threads))
	var all sync.WaitGroup
	begin := make(chan struct{})
	for i := range threads {
		all.Add(1)
		go func(i int) {
			defer all.Done()
			<-begin
			var results []string
			for _, call := range split(threads[i], "|") {
				results = append(results, play(h, call[0], call[1:]))
			}
			told[i] = strings.Join(results, " | ")
		}(i)
	}
	close(begin)
	all.Wait()
	texts, err := history(h, depth)
	if err != nil {
		return ofError(err, true)
	}
	return strings.Join(told, " || ") + " ## " + listed(texts)
}

// play makes a call on one hierarchy.
func play(h *makhloeum.Hierarchy, call string, words []string) string {
	w := make([]string, len(words)+3)
	for i, it := range words {
		w[i] = decoded(it)
	}
	switch call {
	case "mkdir":
		return done(h.Mkdir(w[0]))
	case "rmdir":
		return done(h.Rmdir(w[0]))
	case "fork":
		return done(h.Fork(number(w[0]), number(w[1])))
	case "exit":
		return done(h.Exit(number(w[0])))
	case "attach":
		return done(h.Write(w[0], "cgroup.procs", w[1]))
	case "write":
		return done(h.Write(w[0], w[1], w[2]))
	case "kill":
		return done(h.Write(w[0], "cgroup.kill", "1"))
	case "forget":
		return done(h.Forget())
	case "close":
		return done(h.Close())
	case "fail":
		return done(h.Fail(w[0], uint64(number(w[1])), syscall.Errno(number(w[2]))))
	case "vanish":
		return done(h.Vanish(w[0], uint64(number(w[1]))))
	}
	return shown(h, call, w, words)
}

// shown makes a call that returns more than an error.
func shown(h *makhloeum.Hierarchy, call string, w, words []string) string {
	switch call {
	case "read":
		return text(h.Read(w[0], w[1]))
	case "where":
		return text(h.Where(number(w[0])))
	case "line":
		return text(h.Line(w[0]))
	case "undo":
		return text(h.Undo())
	// generated by ./generate: numbers of a group for the driver in Go
	case "current":
		value, err := h.Current(w[0])
		return result(value, err)
	case "peak":
		value, err := h.Peak(w[0])
		return result(value, err)
	case "limit":
		return limit(h.Limit(w[0]))
	case "populated":
		return truth(h.Populated(w[0]))
	// end of what is generated
	case "has":
		return truth(h.HasGroup(w[0]))
	case "processes":
		return processes(h, w[0])
	case "children":
		return list(h.Children(w[0]))
	case "groups":
		return list(h.Groups(w[0]))
	case "history":
		return list(history(h, number(w[0])))
	case "many":
		return many(h, w[:len(words)])
	case "undoto":
		return undoTo(h, number(w[0]))
	case "depth":
		value, err := h.Depth()
		return result(value, err)
	case "changes":
		value, err := h.Changes()
		return result(value, err)
	case "clear":
		value, err := h.ClearFaults()
		return result(value, err)
	case "wait":
		return wait(h, uint64(number(w[0])), time.Millisecond)
	}
	return "-" // Go has no such call
}

func run(line string) string {
	words := strings.Split(line, " ")
	at, call, arguments := number(words[0]), words[1], words[2:]
	var err error
	switch call {
	case "open":
		handles[at], err = makhloeum.New()
		return done(err)
	case "copy":
		other, err := handles[at].Copy()
		if err == nil {
			handles[number(arguments[0])] = other
		}
		return done(err)
	case "await":
		return beginWaiter(handles[at], arguments[0])
	case "join":
		return joinWaiter(arguments[0])
	case "together":
		return together(handles[at], arguments)
	}
	return play(handles[at], call, arguments)
}

// isOfOne says whether the call concerns one handle and no other threads.
func isOfOne(line string) bool {
	switch strings.Split(line, " ")[1] {
	case "open", "close", "copy", "await", "join", "together":
		return false
	}
	return true
}

func runInThreads(lines, results []string) {
	var all sync.WaitGroup
	for handle := 0; handle < handleCount; handle++ {
		all.Add(1)
		go func(prefix string) {
			defer all.Done()
			for i, line := range lines {
				if strings.HasPrefix(line, prefix) {
					results[i] = run(line)
				}
			}
		}(fmt.Sprint(handle, " "))
	}
	all.Wait()
}

func end() {
	for i, h := range handles {
		if h != nil {
			h.Close()
		}
		handles[i] = nil
	}
	for name := range waiters {
		joinWaiter(name)
	}
}

func sequence(lines []string, hasThreads bool, out *bufio.Writer) {
	handles[0], _ = makhloeum.New()
	results := make([]string, len(lines))
	for at := 0; at < len(lines); {
		first := at
		for hasThreads && at < len(lines) && isOfOne(lines[at]) {
			at++
		}
		if at > first {
			runInThreads(lines[first:at], results[first:at])
		} else {
			results[at] = run(lines[at])
			at++
		}
	}
	end()
	for _, it := range results {
		fmt.Fprintln(out, it)
	}
	out.Flush()
}

func main() {
	in, out := bufio.NewScanner(os.Stdin), bufio.NewWriter(os.Stdout)
	in.Buffer(nil, 1<<20)
	var lines []string
	how := ""
	for in.Scan() {
		line := in.Text()
		if !strings.HasPrefix(line, "new") {
			lines = append(lines, line)
			continue
		}
		if how != "" {
			sequence(lines, how == "new threads", out)
		}
		how, lines = line, nil
	}
	if how != "" {
		sequence(lines, how == "new threads", out)
	}
}
