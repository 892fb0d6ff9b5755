"""./install and ./uninstall, as they are in an unpacked archive: where the files go, what is replaced, and what stays."""

import os
import pathlib
import re
import shutil
import signal
import stat
import subprocess
import tempfile

import pytest

TOP = pathlib.Path(__file__).parents[3]
FILES = {
    "bin/tool": "#!/bin/sh\n",
    "lib/liby.so.1.0.0": "library",
    "lib/pkgconfig/makhloeum.pc": "prefix=@PREFIX@\nlibdir=${prefix}/lib\n",
    "share/man/man1/tool.1": ".TH TOOL 1\n",
    "share/makhloeum/python/makhloeum/__init__.py": "",
    "share/makhloeum/python/makhloeum/page/page.py": "",
}
LINK, LIST = "lib/liby.so", "share/makhloeum/installed"
ALL = sorted([*FILES, LINK, LIST])


@pytest.fixture
def archive(tmp_path):
    at, before = tmp_path / "archive", os.umask(0o022)
    for name, text in FILES.items():
        (at / "tree" / name).parent.mkdir(parents=True, exist_ok=True)
        (at / "tree" / name).write_text(text)
    (at / "tree" / "bin" / "tool").chmod(0o755)
    (at / "tree" / LINK).symlink_to("liby.so.1.0.0")
    for name in ("install", "uninstall"):
        shutil.copy(TOP / name, at)
    os.umask(before)
    return at


def run(archive, name, *words, cwd=None, **environment):
    how = {"cwd": cwd or archive, "capture_output": True, "text": True, "timeout": 60}
    ran = subprocess.run([archive / name, *words], umask=0o077, env=dict(os.environ, **environment), **how)
    return ran.returncode, ran.stdout, ran.stderr


def there(top):
    return sorted(os.path.relpath(os.path.join(at, name), top) for at, _, names in os.walk(top) for name in names)


PLACES = [
    (["--prefix", "{tmp}/p"], "{tmp}/p", "{tmp}/p"),
    (["--prefix={tmp}/p"], "{tmp}/p", "{tmp}/p"),
    (["--prefix", "p"], "{tmp}/p", "{tmp}/p"),
    (["--prefix", "a b &c"], "{tmp}/a b &c", "{tmp}/a b &c"),
    (["--destdir", "{tmp}/d"], "{tmp}/d/usr/local", "/usr/local"),
    (["--destdir={tmp}/d", "--prefix=/opt/x"], "{tmp}/d/opt/x", "/opt/x"),
    (["--prefix", "/opt/x", "--destdir", "d"], "{tmp}/d/opt/x", "/opt/x"),
    (["--prefix", "/no", "--destdir", "{tmp}/no", "--prefix=/opt/y", "--destdir={tmp}/d"], "{tmp}/d/opt/y", "/opt/y"),
]


@pytest.mark.parametrize("words, top, prefix", PLACES)
def test_where_it_is_installed(archive, tmp_path, words, top, prefix):
    words, top = [word.format(tmp=tmp_path) for word in words], pathlib.Path(top.format(tmp=tmp_path))
    assert run(archive, "install", *words, cwd=tmp_path) == (0, f"install: {len(ALL)} files in {top}\n", "")
    assert there(top) == ALL and (top / LIST).read_text().split("\n") == [*ALL, ""]
    described = (top / "lib" / "pkgconfig" / "makhloeum.pc").read_text()
    assert not re.search(r"(?<!\\)[ &]", described), "pkg-config would take it for the end of a word"
    assert re.sub(r"\\(.)", r"\1", described) == f"prefix={prefix.format(tmp=tmp_path)}\nlibdir=${{prefix}}/lib\n"
    assert os.readlink(top / LINK) == "liby.so.1.0.0" and (top / LINK).read_text() == "library"
    modes = [stat.S_IMODE((top / name).stat().st_mode) for name in ("bin/tool", "bin", "lib/liby.so.1.0.0")]
    assert modes == [0o755, 0o755, 0o644], "also if the caller keeps new files to himself"
    assert sorted(os.listdir(tmp_path)) == sorted(["archive", top.relative_to(tmp_path).parts[0]])
    assert run(archive, "uninstall", *words, cwd=tmp_path) == (
        0,
        f"uninstall: {len(ALL)} files removed from {top}\n",
        "",
    )
    assert there(tmp_path) == there_of_the_archive(archive)


def test_an_installation_that_fails_says_so(archive, tmp_path):
    (tmp_path / "file").write_text("")
    (tmp_path / "folder" / "bin" / "tool" / "in_the_way").mkdir(parents=True)
    for prefix in ("file/below", "folder"):
        status, out, error = run(archive, "install", "--prefix", prefix, cwd=tmp_path)
        assert status != 0 and out == "" and error.count("\n") >= 1, prefix
    tools = tmp_path / "tools"
    tools.mkdir()
    for way in ("-cf", "-xf"):
        (tools / "tar").write_text(f'#!/bin/sh\n"{shutil.which("tar")}" "$@"\n[ "$1" != {way} ]\n')
        (tools / "tar").chmod(0o755)
        path = f"{tools}:{os.environ['PATH']}"
        status, out, _ = run(archive, "install", "--prefix", "p", cwd=tmp_path, PATH=path)
        assert status != 0 and out == "", way


def test_nothing_is_left_of_its_work(archive, tmp_path):
    rooms = tmp_path / "rooms"
    rooms.mkdir()
    for text, wanted in (("library", 0), ("made without proofs", 1)):
        (archive / "tree" / "lib" / "libmakhloeum.so.1").write_text(text)
        assert run(archive, "install", "--prefix", str(tmp_path / "p"), TMPDIR=str(rooms))[0] == wanted
        assert os.listdir(rooms) == []


@pytest.mark.parametrize("number", [signal.SIGHUP, signal.SIGINT, signal.SIGTERM])
def test_nothing_is_left_of_the_work_of_one_that_is_ended(archive, tmp_path, number):
    """It waits for the command that it runs, which would go on to write there."""
    rooms, tools, began = tmp_path / "rooms", tmp_path / "tools", tmp_path / "began"
    for folder in (rooms, tools):
        folder.mkdir()
    os.mkfifo(began)
    script = f'#!/bin/sh\necho >"{began}"\nsleep 0.5\nfor last; do :; done\nmkdir -p "$last/late"\n'
    (tools / "cp").write_text(script)
    (tools / "cp").chmod(0o755)
    environment = dict(os.environ, PATH=f"{tools}:{os.environ['PATH']}", TMPDIR=str(rooms))
    words = ["env", "--default-signal", archive / "install", "--prefix", tmp_path / "p"]
    ended = subprocess.Popen(words, env=environment, stdout=subprocess.PIPE, stderr=subprocess.PIPE)
    with open(began, encoding="ascii") as it:
        it.read()
    ended.send_signal(number)
    assert (ended.communicate(timeout=60), ended.returncode) == ((b"", b""), 128 + number)
    assert os.listdir(rooms) == [] and not (tmp_path / "p").exists()


def test_in_a_clone_it_takes_what_was_built(archive, tmp_path):
    (archive / "tree").rename(tmp_path / "built")
    (archive / ".ci").mkdir()
    (archive / ".ci" / "tree").write_text(f'#!/bin/sh\ncp -R "{tmp_path}/built/." "$1"\n')
    (archive / ".ci" / "tree").chmod(0o755)
    top = tmp_path / "p"
    assert run(archive, "install", "--prefix", str(top)) == (0, f"install: {len(ALL)} files in {top}\n", "")
    assert there(top) == ALL


def there_of_the_archive(archive):
    return [f"archive/{name}" for name in there(archive)]


@pytest.mark.parametrize("name", ["install", "uninstall"])
def test_words_that_are_none(archive, tmp_path, name):
    usage = f"usage: ./{name} [--prefix DIR] [--destdir DIR]{' [--unproved]' if name == 'install' else ''}\n"
    before = there(tmp_path)
    for words in (["--prefix"], ["--destdir"], ["--prefix", str(tmp_path / "p"), "--destdir"], ["--wrong"], ["x"]):
        assert run(archive, name, *words) == (2, "", usage), words
    for word in ("-h", "--help"):
        assert run(archive, name, word) == run(archive, name, "--prefix", "p", word) == (0, usage, "")
    assert there(tmp_path) == before


def test_a_program_that_runs_keeps_its_file(archive, tmp_path):
    top = tmp_path / "p"
    run(archive, "install", "--prefix", str(top))
    (top / "bin").chmod(0o700)
    (top / "bin" / "own").write_text("of somebody else")
    with open(top / "bin" / "tool", encoding="ascii") as old:
        (archive / "tree" / "bin" / "tool").write_text("#!/bin/bash\n")
        assert run(archive, "install", "--prefix", str(top))[0] == 0
        assert old.read() == "#!/bin/sh\n" and (top / "bin" / "tool").read_text() == "#!/bin/bash\n"
    assert stat.S_IMODE((top / "bin").stat().st_mode) == 0o700, "a folder that is there stays as it is"
    assert (top / "bin" / "own").read_text() == "of somebody else"


def test_a_link_to_a_folder_stays(archive, tmp_path):
    top, elsewhere = tmp_path / "p", tmp_path / "elsewhere"
    elsewhere.mkdir()
    (elsewhere / "own").write_text("")
    top.mkdir()
    (top / "share").symlink_to(elsewhere)
    assert run(archive, "install", "--prefix", str(top)) == (0, f"install: {len(ALL)} files in {top}\n", "")
    assert os.readlink(top / "share") == str(elsewhere)
    assert there(elsewhere) == sorted(["own", *(name[6:] for name in ALL if name.startswith("share/"))])
    assert run(archive, "uninstall", "--prefix", str(top))[0] == 0
    assert os.listdir(elsewhere) == ["own"] and os.listdir(top) == ["share"]


@pytest.mark.skipif(os.geteuid() != 0, reason="only root can be another user")
def test_somebody_who_may_write_there_installs_it(archive):
    with tempfile.TemporaryDirectory() as room:
        os.chmod(room, 0o755)
        shutil.copytree(archive, f"{room}/archive", symlinks=True)
        os.mkdir(f"{room}/p")
        os.chmod(f"{room}/p", 0o777)
        words = [f"{room}/archive/install", "--prefix", f"{room}/p"]
        ran = subprocess.run(words, user=65534, group=65534, extra_groups=[], capture_output=True, text=True)
        wanted = (0, f"install: {len(ALL)} files in {room}/p\n", "")
        assert (ran.returncode, ran.stdout, ran.stderr) == wanted and there(f"{room}/p") == ALL


def test_a_folder_that_cannot_be_written_is_named_and_nothing_is_installed(archive):
    who = {"user": 65534, "group": 65534, "extra_groups": []} if os.geteuid() == 0 else {}
    with tempfile.TemporaryDirectory() as room:
        os.chmod(room, 0o777)
        shutil.copytree(archive, f"{room}/archive", symlinks=True)
        for folder in ("p", "later", "q/share/man/man1", "r/a b"):
            os.makedirs(f"{room}/{folder}")
        for folder in ("q", "q/share", "q/share/man"):
            os.chmod(f"{room}/{folder}", 0o777)
        for folder in ("p", "later", "q/share/man/man1", "r/a b"):
            os.chmod(f"{room}/{folder}", 0o555)
        before = sorted(os.walk(room))
        for prefix, fault in (
            ("p", "p"),
            ("p/", "p/"),
            ("later/on/it", "later"),
            ("later//on", "later/"),
            ("q", "q/share/man/man1"),
            ("r/a b", "r/a b"),
        ):
            words = [f"{room}/archive/install", "--prefix", f"{room}/{prefix}"]
            ran = subprocess.run(words, capture_output=True, text=True, **who)
            said = f"install: {room}/{fault} can't be written: nothing is installed\n"
            assert (ran.returncode, ran.stdout, ran.stderr) == (1, "", said), prefix
            assert sorted(os.walk(room)) == before, prefix


def test_an_archive_that_was_unpacked_for_its_owner_is_installed_for_everybody(archive, tmp_path):
    for path in (archive / "tree").rglob("*"):
        if not path.is_symlink():
            path.chmod(0o700 if path.is_dir() or path.name == "tool" else 0o600)
    top = tmp_path / "p"
    assert run(archive, "install", "--prefix", str(top))[0] == 0
    for path in [top, *top.rglob("*")]:
        wanted = 0o755 if path.is_dir() or path.name == "tool" else 0o644
        assert stat.S_IMODE(path.stat().st_mode) == wanted, path


def test_what_only_an_older_version_had_goes(archive, tmp_path):
    top, older = tmp_path / "p", archive / "tree" / "share" / "makhloeum" / "python" / "makhloeum-0.9.0.dist-info"
    older.mkdir()
    (older / "METADATA").write_text("")
    (archive / "tree" / "lib" / "liby.so.0.9.0").write_text("an older library")
    assert run(archive, "install", "--prefix", str(top)) == (0, f"install: {len(ALL) + 2} files in {top}\n", "")
    (top / "lib" / "own").write_text("of somebody else")
    shutil.rmtree(older)
    (archive / "tree" / "lib" / "liby.so.0.9.0").unlink()
    assert run(archive, "install", "--prefix", str(top)) == (0, f"install: {len(ALL)} files in {top}\n", "")
    assert there(top) == sorted([*ALL, "lib/own"])
    assert os.listdir(top / "share" / "makhloeum" / "python") == ["makhloeum"], "no empty folder stays"


def test_what_is_not_of_the_installation_stays(archive, tmp_path):
    top = tmp_path / "p"
    run(archive, "install", "--prefix", str(top))
    python = top / "share" / "makhloeum" / "python" / "makhloeum"
    for folder in (python.parent, python, python / "page"):
        (folder / "__pycache__").mkdir()
        (folder / "__pycache__" / "x.pyc").write_text("")
    (top / "lib" / "other.so").write_text("")
    (top / "share" / "man" / "man1" / "other.1").write_text("")
    (top / "bin" / "tool").unlink()
    assert run(archive, "uninstall", "--prefix", str(top))[0] == 0
    assert there(top) == ["lib/other.so", "share/man/man1/other.1"] and sorted(os.listdir(top)) == ["lib", "share"]
    assert os.listdir(top / "share") == ["man"] and os.listdir(top / "lib") == ["other.so"]
    again = run(archive, "uninstall", "--prefix", str(top))
    assert again == (1, "", f"uninstall: nothing is installed in {top}\n")


@pytest.mark.parametrize("name", ["bin/tool", "lib/libmakhloeum.so.1.0.0", "lib/libmakhloeum.a"])
def test_what_was_made_without_proofs_is_installed_only_if_asked(archive, tmp_path, name):
    (archive / "tree" / name).write_bytes(b"\x7fELF\0tool 1.0.0 without proofs\n\0")
    status, _, said = run(archive, "install", "--prefix", tmp_path / "p")
    assert (status, there(tmp_path / "p")) == (1, [])
    assert said.startswith(f"install: {os.path.basename(name)} was made without proofs")
    assert run(archive, "install", "--prefix", tmp_path / "p", "--unproved")[0] == 0
    assert name in there(tmp_path / "p")
