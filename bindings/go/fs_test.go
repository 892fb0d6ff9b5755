package makhloeum

import (
	"errors"
	"io"
	"io/fs"
	"sort"
	"strings"
	"syscall"
	"testing"
	"testing/fstest"
)

func TestFileSystem(t *testing.T) {
	h := open(t)
	do(t, h, "mkdir /a", "mkdir /a/b", "mkdir /a/z-last", "mkdir /d", "mkdir /0", "fork 1 2", "write /a/b cgroup.procs 2", "write /a pids.max 7")
	if err := fstest.TestFS(h.FS(), "a/b/cgroup.procs", "a/z-last/pids.max", "d/cgroup.events", "cgroup.procs", "cpu.stat", "0"); err != nil {
		t.Error(err)
	}
	for name, want := range map[string]string{"a/b/cgroup.procs": "2\n", "a/pids.max": "7\n", "cgroup.procs": "1\n", "d/cgroup.type": "domain\n",
		"a/cgroup.events": "populated 1\nfrozen 0\n", "cgroup.controllers": "pids\n"} {
		text, err := fs.ReadFile(h.FS(), name)
		says(t, want, string(text), err)
	}
	if !sort.SliceIsSorted(files, func(i, j int) bool { return files[i].name < files[j].name }) {
		t.Error("the table is not sorted")
	}
}

func TestFileSystemChanges(t *testing.T) {
	f := open(t).FS()
	for _, err := range []error{f.Mkdir("a"), f.Mkdir("a/b"), f.WriteFile("a/pids.max", []byte("5\n")), f.WriteFile("a/cgroup.procs", []byte("1")),
		f.WriteFile("a/cgroup.subtree_control", []byte("+pids")), f.WriteFile("a/cgroup.freeze", []byte("0\n")), f.Remove("a/b")} {
		if err != nil {
			t.Error(err)
		}
	}
	for _, row := range []struct {
		err  error
		want error
	}{
		{f.Mkdir("a"), fs.ErrExist}, {f.Mkdir("x/y"), fs.ErrNotExist}, {f.Mkdir("/a"), fs.ErrInvalid}, {f.Remove("a"), syscall.EBUSY},
		{f.WriteFile("a/none", nil), fs.ErrPermission}, {f.WriteFile("a/cgroup.freeze", []byte("2")), syscall.ERANGE},
		{f.WriteFile("x/pids.max", []byte("1")), fs.ErrNotExist}, {f.WriteFile("a/pids.max", []byte("x")), syscall.EINVAL},
		{f.WriteFile("x/cgroup.freeze", []byte("0")), fs.ErrNotExist}, {f.WriteFile("cgroup.type", []byte("domain")), fs.ErrPermission},
		{f.WriteFile("cgroup.kill", []byte("1")), fs.ErrPermission}, {f.WriteFile("a/cpu.stat", []byte("1")), syscall.EINVAL},
	} {
		var path *fs.PathError
		if !errors.As(row.err, &path) || !errors.Is(row.err, row.want) {
			t.Errorf("%v; not %v", row.err, row.want)
		}
	}
	for _, name := range []string{"pids.max", "a/x", "x/cgroup.procs", "x/cgroup.type", "x/cpu.stat", "a/cgroup.kill", "cgroup.procs/a"} {
		if _, err := f.Stat(name); !errors.Is(err, fs.ErrNotExist) {
			t.Errorf("%s: %v", name, err)
		}
	}
}

func TestWritesAreThoseOfAMount(t *testing.T) {
	h := open(t)
	do(t, h, "mkdir /a", "fork 1 2")
	f := h.FS()
	for _, row := range []struct {
		name, data string
		want       error
		text       string
	}{
		{"a/pids.max", "0x10\n", nil, "16\n"}, {"a/pids.max", "010", nil, "8\n"}, {"a/pids.max", " +5\t", nil, "5\n"}, {"a/pids.max", "-1", syscall.EINVAL, "5\n"},
		{"a/pids.max", "9223372036854775808", syscall.ERANGE, "5\n"}, {"a/pids.max", strings.Repeat("1", 5000), syscall.E2BIG, "5\n"},
		{"a/cgroup.max.depth", "2147483648", syscall.ERANGE, "max\n"}, {"a/cgroup.procs", "9", syscall.ESRCH, ""}, {"a/cgroup.procs", "x", syscall.EINVAL, ""},
		{"a/cgroup.procs", "0\n", nil, "1\n"}, {"cgroup.subtree_control", "+memory", syscall.EOPNOTSUPP, "pids\n"},
	} {
		err := f.WriteFile(row.name, []byte(row.data))
		if (row.want == nil) != (err == nil) || !errors.Is(err, row.want) {
			t.Errorf("%s %.20q: %v; not %v", row.name, row.data, err, row.want)
		}
		text, err := f.ReadFile(row.name)
		says(t, row.text, string(text), err)
	}
	if err := f.As(2).WriteFile("a/cgroup.procs", []byte("0")); err != nil {
		t.Error(err)
	}
	text, err := f.ReadFile("a/cgroup.procs")
	says(t, "1\n2\n", string(text), err)
	if err := f.WriteFile("a/cgroup.kill", []byte("1")); err != nil {
		t.Error(err)
	}
	text, err = f.ReadFile("a/cgroup.procs")
	says(t, "", string(text), err)
	deep := ""
	for i := 0; i < 32; i++ {
		deep += "/d"
		do(t, h, "mkdir "+deep)
	}
	for _, row := range []struct{ err, want error }{
		{f.Mkdir("pids.x"), syscall.EINVAL}, {f.Mkdir("a b"), syscall.EINVAL}, {f.Mkdir(strings.Repeat("x", nameMax+1)), syscall.ENAMETOOLONG},
		{f.Mkdir(deep[1:] + "/d"), syscall.EAGAIN}, {f.Mkdir("e/" + deep[1:]), syscall.ENOENT}, {f.Mkdir("a/pids.max"), syscall.EEXIST}, {f.Remove("a/pids.max"), syscall.EPERM},
		{f.Remove("a b"), syscall.ENOENT}, {f.Remove("."), syscall.EBUSY}, {f.WriteFile("a/x\x00y", nil), syscall.EINVAL},
		{f.WriteFile("a/pids.max\x00y", []byte("7")), syscall.EINVAL}, {f.Remove("x/pids.max"), syscall.ENOENT}, {f.Mkdir("x/pids.max"), syscall.ENOENT},
		{f.WriteFile("a", []byte("1")), syscall.EISDIR}, {f.WriteFile(".", nil), syscall.EISDIR}, {f.WriteFile("x", []byte("1")), syscall.EACCES},
		{f.Mkdir("cgroup.procs/x"), syscall.ENOTDIR}, {f.Mkdir("a/pids.max/x"), syscall.ENOTDIR}, {f.Mkdir("x/pids.max/y"), syscall.ENOENT},
		{f.Mkdir("a/pids.max/x/y"), syscall.ENOTDIR}, {f.WriteFile("cgroup.procs/x", nil), syscall.ENOTDIR}, {f.WriteFile("a/cgroup.kill/x", nil), syscall.ENOTDIR},
		{f.WriteFile("a/pids.max/pids.max/x", nil), syscall.ENOTDIR}, {f.WriteFile("a/pids.max/pids.max", nil), syscall.ENOTDIR}, {f.WriteFile("x/pids.max/y", nil), syscall.ENOENT},
		{f.WriteFile("a/none", nil), syscall.EACCES}, {f.WriteFile("a/b c", nil), syscall.EACCES}, {f.WriteFile(deep[1:]+"/d", nil), syscall.EACCES},
		{f.WriteFile("x/none", nil), syscall.ENOENT}, {f.WriteFile("a b/none", nil), syscall.ENOENT}, {f.WriteFile(strings.Repeat("x", nameMax+1), nil), syscall.EACCES},
		{f.Mkdir("a/cgroup.kill"), syscall.EEXIST}, {f.Mkdir("cgroup.kill"), syscall.EINVAL}, {f.Mkdir("x/cgroup.kill"), syscall.ENOENT},
	} {
		if !errors.Is(row.err, row.want) {
			t.Errorf("%v; not %v", row.err, row.want)
		}
	}
}

// A freeze is shown by the files, and not by the engine; cgroup.threads has the pids.
func TestTheFreezer(t *testing.T) {
	h := open(t)
	do(t, h, "mkdir /a", "mkdir /a/b", "write /a/b cgroup.procs 1")
	f := h.FS()
	show := func(name, want string) {
		t.Helper()
		text, err := f.ReadFile(name)
		says(t, want, string(text), err)
	}
	for _, freezes := range []string{"0", "1", "0"} {
		if err := f.WriteFile("a/cgroup.freeze", []byte(freezes+"\n")); err != nil {
			t.Error(err)
		}
		show("a/cgroup.freeze", freezes+"\n")
		show("a/cgroup.events", "populated 1\nfrozen "+freezes+"\n")
		show("a/b/cgroup.events", "populated 1\nfrozen "+freezes+"\n")
		text, err := h.Read("/a", "cgroup.events")
		says(t, "populated 1\nfrozen 0\n", text, err)
	}
	show("a/b/cgroup.threads", "1\n")
	show("cgroup.threads", "")
}

func TestNamesThatNoGroupHas(t *testing.T) {
	f := open(t).FS()
	long := strings.Repeat("x/", 2100) + "x"
	for name, want := range map[string]error{long: syscall.ENAMETOOLONG, strings.Repeat("x", nameMax+1): syscall.ENOENT, "a b": syscall.ENOENT, "pids.x": syscall.ENOENT} {
		_, open := f.Open(name)
		_, stat := f.Stat(name)
		_, list := f.ReadDir(name)
		for operation, err := range map[string]error{"open": open, "stat": stat, "list": list, "remove": f.Remove(name)} {
			if !errors.Is(err, want) {
				t.Errorf("%s %.20s: %v; not %v", operation, name, err, want)
			}
		}
	}
}

// A write to a file whose group no hierarchy can have is refused as a read of it is.
func TestWritesBelowNamesThatNoGroupHas(t *testing.T) {
	f := open(t).FS()
	for name, want := range map[string]error{
		strings.Repeat("x/", 2100) + "pids.max": syscall.ENAMETOOLONG, strings.Repeat("x", nameMax+1) + "/pids.max": syscall.ENOENT,
		"a b/pids.max": syscall.ENOENT, "pids.x/pids.max": syscall.ENOENT, strings.Repeat("d/", depthMax+1) + "cgroup.procs": syscall.ENOENT, "a\x00/cgroup.type": syscall.ENOENT,
	} {
		_, read := f.ReadFile(name)
		for operation, err := range map[string]error{"read": read, "write": f.WriteFile(name, []byte("1"))} {
			if !errors.Is(err, want) {
				t.Errorf("%s %.20s: %v; not %v", operation, name, err, want)
			}
		}
	}
}

// A file that the root lacks is missing there in every way, also one whose text is always the same.
func TestFilesThatTheRootLacks(t *testing.T) {
	f := open(t).FS()
	lacks := 0
	for _, it := range files {
		if it.onRoot {
			continue
		}
		lacks++
		_, read := f.ReadFile(it.name)
		_, stat := f.Stat(it.name)
		_, opened := f.Open(it.name)
		_, list := f.ReadDir(it.name)
		for operation, err := range map[string]error{"read": read, "stat": stat, "open": opened, "list": list} {
			if !errors.Is(err, fs.ErrNotExist) {
				t.Errorf("%s %s: %v", operation, it.name, err)
			}
		}
		if err := f.WriteFile(it.name, []byte("1")); !errors.Is(err, syscall.EACCES) {
			t.Errorf("write %s: %v", it.name, err)
		}
	}
	if lacks < 5 {
		t.Error(lacks)
	}
}

// What the caller does with a part of a listing doesn't change the next one.
func TestPartsOfAListingAreTheCallers(t *testing.T) {
	h := open(t)
	do(t, h, "mkdir /a")
	opened, err := h.FS().Open("a")
	if err != nil {
		t.Fatal(err)
	}
	whole, err := h.FS().ReadDir("a")
	if err != nil {
		t.Fatal(err)
	}
	folder := opened.(fs.ReadDirFile)
	var all []fs.DirEntry
	for part, err := folder.ReadDir(2); err == nil; part, err = folder.ReadDir(2) {
		all = append(all, part...)
		_ = append(part, part[0])
	}
	if len(all) != len(whole) {
		t.Fatal(len(all), len(whole))
	}
	for i, entry := range whole {
		says(t, entry.Name(), all[i].Name(), nil)
	}
}

// As fs.ReadDirFile says: with a positive number at most that many, and io.EOF at the end; else the rest, and no error at the end.
func TestHowManyEntriesAreRead(t *testing.T) {
	h := open(t)
	do(t, h, "mkdir /a", "mkdir /a/b")
	all, err := h.FS().ReadDir("a")
	if err != nil {
		t.Fatal(err)
	}
	type step struct {
		n, want int
		err     error
	}
	for _, steps := range [][]step{
		{{3, 3, nil}, {1, 1, nil}, {0, len(all) - 4, nil}, {-1, 0, nil}, {1, 0, io.EOF}, {0, 0, nil}},
		{{len(all) + 5, len(all), nil}, {1, 0, io.EOF}, {1, 0, io.EOF}}, {{len(all), len(all), nil}, {-1, 0, nil}},
		{{-1, len(all), nil}, {2, 0, io.EOF}}, {{len(all) - 1, len(all) - 1, nil}, {2, 1, nil}, {2, 0, io.EOF}},
	} {
		opened, err := h.FS().Open("a")
		if err != nil {
			t.Fatal(err)
		}
		at := 0
		for _, it := range steps {
			part, err := opened.(fs.ReadDirFile).ReadDir(it.n)
			if len(part) != it.want || err != it.err {
				t.Fatal(it, len(part), err)
			}
			for _, entry := range part {
				says(t, all[at].Name(), entry.Name(), nil)
				at++
			}
		}
	}
}

func TestAnOpenGroup(t *testing.T) {
	h := open(t)
	do(t, h, "mkdir /a")
	opened, err := h.FS().Open("a")
	if err != nil {
		t.Fatal(err)
	}
	var failed *fs.PathError
	if _, err := opened.Read(make([]byte, 9)); !errors.As(err, &failed) || failed.Op != "read" || failed.Path != "a" || failed.Err != syscall.EISDIR {
		t.Error(err)
	}
	do(t, h, "rmdir /a")
	folder := opened.(fs.ReadDirFile)
	if _, err := folder.ReadDir(-1); !errors.Is(err, fs.ErrNotExist) {
		t.Error(err)
	}
	// one that couldn't be listed is asked for again
	do(t, h, "mkdir /a")
	if entries, err := folder.ReadDir(-1); err != nil || len(entries) < 10 {
		t.Error(len(entries), err)
	}
	// a listing is that of its first part
	do(t, h, "mkdir /a/later")
	if entries, err := folder.ReadDir(-1); err != nil || len(entries) != 0 {
		t.Error(len(entries), err)
	}
	info, err := opened.Stat()
	if err != nil || info.Name() != "a" || !info.IsDir() || info.Mode() != fs.ModeDir|0o755 || info.Size() != 0 || !info.ModTime().IsZero() || info.Sys() != nil {
		t.Error(info, err)
	}
	if err := opened.Close(); err != nil {
		t.Error(err)
	}
}

// Info of an entry is that of the time at which it is asked.
func TestEntriesOfAListing(t *testing.T) {
	h := open(t)
	do(t, h, "mkdir /a", "mkdir /a/b")
	entries, err := h.FS().ReadDir("a")
	if err != nil {
		t.Fatal(err)
	}
	do(t, h, "write /a pids.max 12345", "rmdir /a/b")
	for _, entry := range entries {
		info, err := entry.Info()
		if entry.Name() == "b" {
			if !errors.Is(err, fs.ErrNotExist) || !entry.IsDir() || entry.Type() != fs.ModeDir {
				t.Error(entry, err)
			}
			continue
		}
		if err != nil || info.Name() != entry.Name() || info.IsDir() || entry.Type() != 0 {
			t.Error(entry, err)
		}
		if entry.Name() == "pids.max" && info.Size() != 6 {
			t.Error(info.Size())
		}
	}
}
