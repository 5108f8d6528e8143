#!/usr/bin/env python3
"""Tests the crate's front, froesaffron: its words, messages and statuses, how it writes files in
place, and what is left where that fails.

usage: front_test.py [--kills N] COMMAND

- Each option, each message, and the statuses 0 and 1.
- Files in place: permissions, owners and links stay. A file that is refused or may not be written,
  one in a folder that may not be, and one on a full disk stay as they were, and the others are
  formatted.
- The diffs of 200 sources with drawn line breaks: `patch` makes the text of the source by them, and
  they have as few lines as those of `diff`.
- Runs at once on one file, and runs whose temporary files are taken away.
- N kills (200 where no number is named) at drawn moments, and one at each call of the system: the
  file is the old one or the new one, and the next run leaves no temporary file.

Each part that can't be tried on this machine is named with what is missing. The exit status is 0
where nothing failed.
"""
import concurrent.futures
import os
import pathlib
import random
import re
import shutil
import signal
import stat
import subprocess
import sys
import tempfile
import threading
import time

import usage

OLD = b"fn   f( ){}\n"
NEW = b"fn f() {}\n"
REFUSED = b"struct A;\nfn f() { 1 + ; }\n"
# A user and a group who own nothing.
NOBODY = 65534
WORDS = "froesaffron --help tells the words"


class Front:
    """The command, and what has failed so far."""

    def __init__(self, command, folder):
        self.command = command
        self.top = folder
        self.failed = 0
        self.folders = 0

    def folder(self, **files):
        """A new folder with files, each named without its `.rs`."""
        self.folders += 1
        folder = self.top / str(self.folders)
        folder.mkdir()
        for name, text in files.items():
            (folder / f"{name}.rs").write_bytes(text)
        return folder

    def run(self, *words, cwd=None, stdin=b"", **more):
        ran = subprocess.run(
            [self.command, *words], cwd=cwd, input=stdin, capture_output=True, timeout=600, **more
        )
        return ran.returncode, ran.stdout, ran.stderr.decode()

    def same(self, name, had, wanted):
        if had != wanted:
            self.failed += 1
            print(f"FAILED {name}: wanted {wanted!r:.500}, had {had!r:.500}", flush=True)

    def holds(self, name, condition):
        self.same(name, bool(condition), True)


def left(folder):
    """The temporary files in a folder."""
    return sorted(path.name for path in folder.iterdir() if path.name.startswith(".froesaffron-"))


def source(lines, seed=1):
    """A source of so many functions, with drawn blanks and line breaks."""
    draw = random.Random(seed)
    gap = lambda: draw.choice([" ", "  ", "\n", " \n\n ", "\t"])
    parts = []
    for number in range(lines):
        head = f"pub fn f{number} ( a : u32 , b : & str ) -> u32"
        body = f"{{ let c = a + {number} ; if c > 1 {{ g ( b ) ; }} c }}"
        words = f"{head} {body}".split()
        parts.append("".join(word + gap() for word in words))
    return "".join(parts).encode()


def test_words(front):
    folder = front.folder(a=OLD, b=NEW)
    a, b = folder / "a.rs", folder / "b.rs"
    run = lambda *words, **more: front.run(*words, cwd=folder, **more)
    diff = b"--- a.rs\n+++ a.rs\n@@ -1 +1 @@\n-fn   f( ){}\n+fn f() {}\n"
    in_pipe = diff.replace(b"a.rs", b"<stdin>")
    # What bindgen, wayland-scanner, cargo fmt and others give, in front of and behind the files.
    unused = [
        ["--edition", "2015"],
        ["--edition=2018"],
        ["--edition", "2021"],
        ["--edition=2024"],
        ["--style-edition", "2024"],
        ["--color", "always"],
        ["--color=never"],
        ["--color", "auto"],
        ["--config-path", "/nowhere"],
        ["--config-path=x.toml"],
        ["--config", "max_width=80", "--config=tab_spaces=2"],
        ["-q"],
        ["--quiet"],
        ["-v"],
        ["--verbose"],
    ]
    for words in [[], *unused]:
        front.same(f"standard input, {words}", run(*words, stdin=OLD), (0, NEW, ""))
        front.same(
            f"standard input, {words}, --emit=stdout",
            run("--emit=stdout", *words, stdin=OLD),
            (0, NEW, ""),
        )
        a.write_bytes(OLD)
        status, out, _ = run(*words, "a.rs")
        front.same(f"in place, {words}", (status, out, a.read_bytes()), (0, b"", NEW))
        a.write_bytes(OLD)
        status, out, _ = run("a.rs", *words, "--emit", "files")
        front.same(f"in place, {words} behind", (status, out, a.read_bytes()), (0, b"", NEW))
        a.write_bytes(OLD)
        status, out, _ = run("--emit", "stdout", "a.rs", *words)
        front.same(f"to standard output, {words}", (status, out, a.read_bytes()), (0, NEW, OLD))
        status, out, _ = run("--check", "a.rs", *words)
        front.same(f"--check, {words}", (status, out, a.read_bytes()), (1, diff, OLD))
    front.same(
        "-v tells what has no effect",
        run("-v", "--edition", "2021", "--config-path=p", "--config", "a=b", stdin=OLD),
        (
            0,
            NEW,
            "".join(
                f"froesaffron: {option} has no effect\n"
                for option in ("--edition 2021", "--config-path p", "--config a=b")
            ),
        ),
    )
    front.same(
        "-v tells what comes of files",
        run("-v", "a.rs", "b.rs"),
        (0, b"", "a.rs: written\nb.rs: is formatted\n"),
    )
    a.write_bytes(OLD)
    front.same("--check of two", run("--check", "a.rs", "b.rs"), (1, diff, "a.rs: differs\n"))
    front.same("--check -q", run("--check", "-q", "a.rs"), (1, diff, ""))
    front.same("--check of a file that is formatted", run("--check", "b.rs"), (0, b"", ""))
    front.same(
        "--check of standard input", run("--check", stdin=OLD), (1, in_pipe, "<stdin>: differs\n")
    )
    front.same(
        "--check of standard input that is formatted", run("--check", stdin=NEW), (0, b"", "")
    )
    front.same("--check -l", run("--check", "-l", "a.rs", "b.rs"), (1, b"a.rs\n", ""))
    front.same("-l", run("--files-with-diff", "a.rs", "b.rs"), (0, b"a.rs\n", ""))
    front.same("-l, again", run("-l", "a.rs", "b.rs"), (0, b"", ""))
    a.write_bytes(OLD)
    front.same("-", run("-", stdin=OLD), (0, NEW, ""))
    front.same("- and a file", run("-", "a.rs", stdin=b"struct  A;"), (0, b"struct A;\n", ""))
    front.same("the file beside -", a.read_bytes(), NEW)
    front.same(
        "--emit stdout of two",
        run("--emit", "stdout", "a.rs", "b.rs"),
        (0, b"a.rs:\n\n" + NEW + b"b.rs:\n\n" + NEW, ""),
    )
    front.same(
        "--emit stdout -q of two", run("--emit", "stdout", "-q", "a.rs", "b.rs"), (0, NEW + NEW, "")
    )
    (folder / "-q").write_bytes(OLD)
    front.same("--", run("--", "-q"), (0, b"", ""))
    front.same("the file behind --", (folder / "-q").read_bytes(), NEW)
    front.same("no input", run(), (0, b"", ""))
    version = re.search(r'^version = "(.*)"', (TOP / "rust/Cargo.toml").read_text(), re.M)[1]
    for words in ["--version", "-V", "-qV"]:
        front.same(words, run(words), (0, f"froesaffron {version}\n".encode(), ""))
    for words in [["--help"], ["-h"], ["--help=config"], ["--check", "-h", "-V", "nothing.rs"]]:
        status, out, errors = run(*words)
        front.same(
            f"{words}", (status, out.decode().count("usage: froesaffron"), errors), (0, 1, "")
        )
    faults = {
        "no such option: --bogus": ["--bogus", "a.rs"],
        "no such option: -x": ["-qx"],
        "no such option: --emi": ["--emi=stdout"],
        "--edition wants a value": ["a.rs", "--edition"],
        "--edition is one of 2015, 2018, 2021, 2024, not 2017": ["--edition=2017"],
        "--style-edition is one of 2015, 2018, 2021, 2024, not ": ["--style-edition="],
        "--color is one of always, never, auto, not red": ["--color", "red"],
        "--emit is one of files, stdout, not json": ["--emit", "json"],
        "--emit is given more than once": ["--emit", "stdout", "--emit=stdout"],
        "--quiet is given more than once": ["-q", "--quiet"],
        "--check takes no value": ["--check=yes"],
        "--emit and --check exclude each other": ["--check", "--emit", "stdout"],
        "--quiet and --verbose exclude each other": ["-v", "-q"],
        "--emit files: standard input is no file": ["--emit", "files"],
        "standard input is named more than once": ["-", "-"],
    }
    a.write_bytes(OLD)
    for fault, words in faults.items():
        front.same(
            f"{words}", run(*words, stdin=OLD), (1, b"", f"froesaffron: {fault} ({WORDS})\n")
        )
    front.same(
        "no file was written by wrong words",
        (a.read_bytes(), sorted(os.listdir(folder))),
        (OLD, ["-q", "a.rs", "b.rs"]),
    )


def test_messages(front):
    folder = front.folder(
        a=OLD, refused=REFUSED, bytes=b"struct A;\xff", token=b"\\", open=b"fn f(", z=OLD
    )
    (folder / "sub").mkdir()
    os.symlink("nowhere", folder / "dangling.rs")
    os.symlink("loop.rs", folder / "loop.rs")
    os.mkfifo(folder / "pipe.rs")
    names = [
        "a.rs",
        "refused.rs",
        "bytes.rs",
        "token.rs",
        "open.rs",
        "missing.rs",
        "sub",
        "dangling.rs",
        "loop.rs",
        "pipe.rs",
        "a.rs/x",
        "z.rs",
    ]
    lines = [
        "refused.rs:2:1: no item(?: \\(read as far as 2:\\d+\\))?",
        "bytes.rs:1:10: not UTF-8",
        "token.rs:1:1: no token",
        "open.rs:1:5: unbalanced delimiter",
        "missing.rs: No such file or directory",
        "sub: is a folder; its files are formatted by: "
        "find sub -name '\\*.rs' -exec froesaffron {} \\+",
        "dangling.rs: No such file or directory",
        "loop.rs: Too many levels of symbolic links",
        "pipe.rs: not written: is no regular file",
        "a.rs/x: Not a directory",
    ]
    status, out, errors = front.run(*names, cwd=folder)
    front.same("the status of many files", (status, out), (1, b""))
    front.holds(
        f"the messages {errors!r}", re.fullmatch("".join(line + "\n" for line in lines), errors)
    )
    front.same(
        "the first and the last",
        ((folder / "a.rs").read_bytes(), (folder / "z.rs").read_bytes()),
        (NEW, NEW),
    )
    front.same("a refused file", (folder / "refused.rs").read_bytes(), REFUSED)
    front.same(
        "standard input, refused",
        front.run(stdin=b"fn f("),
        (1, b"", "<stdin>:1:5: unbalanced delimiter\n"),
    )
    for words in [["--check"], ["--emit", "stdout"]]:
        status, _, errors = front.run(*words, "refused.rs", "missing.rs", cwd=folder)
        front.holds(
            f"{words} {errors!r}",
            status == 1 and re.fullmatch(lines[0] + "\n" + lines[4] + "\n", errors),
        )
    deep = b"mod a{" * 10000 + b"}" * 10000
    status, out, errors = front.run(stdin=deep)
    front.holds(
        "10,000 modules", status == 1 and out == b"" and errors.startswith("<stdin>:1:1: no item")
    )
    # A pipe that is closed, a full device, and a folder as standard input.
    (folder / "long.rs").write_bytes(source(5000))
    for words in [
        ["--emit", "stdout", "long.rs"],
        ["--check", "long.rs", "a.rs"],
        ["--help"],
        ["--version"],
    ]:
        reader, writer = os.pipe()
        os.close(reader)
        ran = subprocess.run(
            [front.command, *words], cwd=folder, stdout=writer, stderr=subprocess.PIPE, timeout=600
        )
        os.close(writer)
        front.same(f"a closed pipe, {words}", (ran.returncode, ran.stderr), (1, b""))
        with open("/dev/full", "w") as full:
            ran = subprocess.run(
                [front.command, *words],
                cwd=folder,
                stdout=full,
                stderr=subprocess.PIPE,
                timeout=600,
            )
        front.same(
            f"a full device, {words}",
            (ran.returncode, ran.stderr),
            (1, b"<stdout>: No space left on device\n"),
        )
    given = os.open(folder, os.O_RDONLY)
    ran = subprocess.run([front.command], stdin=given, capture_output=True, timeout=600)
    os.close(given)
    front.same(
        "a folder as standard input",
        (ran.returncode, ran.stdout, ran.stderr),
        (1, b"", b"<stdin>: Is a directory\n"),
    )
    with open("/dev/full", "w") as full:
        ran = subprocess.run(
            [front.command, "missing.rs"],
            cwd=folder,
            stdout=subprocess.PIPE,
            stderr=full,
            timeout=600,
        )
    front.same("standard error that is full", (ran.returncode, ran.stdout), (1, b""))
    name = os.fsencode(folder) + b"/n\xff.rs"
    with open(name, "wb") as file:
        file.write(OLD)
    front.same("a name that is no UTF-8", front.run(name), (0, b"", ""))
    with open(name, "rb") as file:
        front.same("the file with that name", file.read(), NEW)


def test_in_place(front):
    for mode in [0o644, 0o600, 0o755, 0o664, 0o4755, 0o2644, 0o620]:
        folder = front.folder(a=OLD)
        (folder / "a.rs").chmod(mode)
        front.run("a.rs", cwd=folder, umask=0o077)
        front.same(
            f"mode {mode:o}",
            (stat.S_IMODE((folder / "a.rs").stat().st_mode), (folder / "a.rs").read_bytes()),
            (mode, NEW),
        )
    folder = front.folder(a=OLD, b=NEW)
    before = [(folder / name).stat() for name in ("a.rs", "b.rs")]
    front.run("a.rs", "b.rs", cwd=folder)
    after = [(folder / name).stat() for name in ("a.rs", "b.rs")]
    front.holds(
        "a file that is formatted isn't written",
        before[1].st_ino == after[1].st_ino and before[1].st_mtime_ns == after[1].st_mtime_ns,
    )
    front.same("no other file", sorted(os.listdir(folder)), ["a.rs", "b.rs"])
    # A link in one folder, to a link in another, to the file in a third.
    one, two, three = front.folder(), front.folder(), front.folder(a=OLD)
    os.symlink(two / "middle.rs", one / "link.rs")
    os.symlink(f"../{three.name}/a.rs", two / "middle.rs")
    front.same("a link", front.run("link.rs", cwd=one), (0, b"", ""))
    front.same(
        "the links",
        (os.readlink(one / "link.rs"), os.readlink(two / "middle.rs")),
        (str(two / "middle.rs"), f"../{three.name}/a.rs"),
    )
    front.same(
        "their file", ((three / "a.rs").is_symlink(), (three / "a.rs").read_bytes()), (False, NEW)
    )
    front.same(
        "no other files",
        [os.listdir(folder) for folder in (one, two, three)],
        [["link.rs"], ["middle.rs"], ["a.rs"]],
    )
    # A name as long as the system takes.
    folder = front.folder()
    long = folder / ("a" * 252 + ".rs")
    long.write_bytes(OLD)
    front.same(
        "a long name", (front.run(long.name, cwd=folder), long.read_bytes()), ((0, b"", ""), NEW)
    )
    # What looks like a temporary file of a killed run, and what doesn't.
    folder = front.folder(a=NEW)
    gone = ".froesaffron-4194304-1-0123456789abcdef.tmp"
    mine = f".froesaffron-{os.getpid()}-{started(os.getpid())}-0123456789abcdef.tmp"
    reused = f".froesaffron-{os.getpid()}-{started(os.getpid()) + 1}-0123456789abcdef.tmp"
    others = [
        ".froesaffron-notes.tmp",
        ".froesaffron-1-1-0.tmp",
        "froesaffron-4194304-1-0123456789abcdef.tmp",
    ]
    for name in [gone, mine, reused, *others]:
        (folder / name).write_bytes(b"half")
    front.run("--check", "a.rs", cwd=folder)
    front.same("--check removes nothing", len(os.listdir(folder)), 7)
    front.run("a.rs", cwd=folder)
    front.same(
        "what a killed run left is removed",
        sorted(os.listdir(folder)),
        sorted([mine, *others, "a.rs"]),
    )


def started(process):
    return int(pathlib.Path(f"/proc/{process}/stat").read_text().rsplit(") ", 1)[1].split()[19])


def test_access(front):
    """As a user who isn't root, since root may do all."""
    who = {"user": NOBODY, "group": NOBODY, "extra_groups": []} if os.getuid() == 0 else {}
    folder = front.folder(a=OLD, b=OLD, c=OLD)
    if who:
        for path in [folder, *folder.iterdir()]:
            os.chown(path, NOBODY, NOBODY)
    (folder / "a.rs").chmod(0o444)
    (folder / "b.rs").chmod(0o000)
    front.same(
        "files that may not be written and read",
        front.run("a.rs", "b.rs", "c.rs", cwd=folder, **who),
        (1, b"", "a.rs: not written: Permission denied\nb.rs: Permission denied\n"),
    )
    (folder / "b.rs").chmod(0o644)
    front.same(
        "these files, and one behind them",
        [(folder / name).read_bytes() for name in ("a.rs", "b.rs", "c.rs")],
        [OLD, OLD, NEW],
    )
    front.same("no other file", left(folder), [])
    folder.chmod(0o555)
    front.same(
        "a folder that may not be written",
        front.run("b.rs", cwd=folder, **who),
        (1, b"", "b.rs: not written: Permission denied\n"),
    )
    front.same("its file", ((folder / "b.rs").read_bytes(), left(folder)), (OLD, []))
    front.same("a file in it that is formatted", front.run("c.rs", cwd=folder, **who), (0, b"", ""))
    folder.chmod(0o755)
    if not who:
        return print("owners: left out, since only root can give a file to another")
    folder = front.folder(a=OLD, b=OLD)
    os.chown(folder / "a.rs", NOBODY, NOBODY)
    front.same("root formats another's file", front.run("a.rs", cwd=folder), (0, b"", ""))
    found = (folder / "a.rs").stat()
    front.same(
        "its owner",
        (found.st_uid, found.st_gid, (folder / "a.rs").read_bytes()),
        (NOBODY, NOBODY, NEW),
    )
    folder.chmod(0o777)
    (folder / "b.rs").chmod(0o666)
    front.same(
        "one who can't give it back to its owner",
        front.run("b.rs", cwd=folder, **who),
        (1, b"", "b.rs: not written: Operation not permitted\n"),
    )
    found = (folder / "b.rs").stat()
    front.same(
        "the file",
        (found.st_uid, (folder / "b.rs").read_bytes(), left(folder)),
        (os.getuid(), OLD, []),
    )


def test_disk(front):
    """On a small file system in memory, which is mounted where this user may."""
    large = source(600)
    folder = front.folder(large=large, a=OLD)
    mount = front.folder()
    space = (
        ["unshare", "--mount"] if os.getuid() == 0 else ["unshare", "--mount", "--map-root-user"]
    )

    def mounted(script):
        return subprocess.run(
            [*space, "sh", "-c", script, "sh", front.command, folder, mount],
            capture_output=True,
            timeout=600,
        )

    small = 'mount -t tmpfs -o size=96k none "$3" && cp "$2"/*.rs "$3" && cd "$3" && '
    if not shutil.which("unshare") or mounted(small + "true").returncode != 0:
        print(
            "a full disk, a disk that is read only: left out, since nothing can be mounted here"
        )
    else:
        assert 60000 < len(large) < 80000
        ran = mounted(small + '"$1" large.rs; echo $?; cmp large.rs "$2"/large.rs && ls -A')
        front.same(
            "a full disk",
            (ran.stdout, ran.stderr),
            (b"1\na.rs\nlarge.rs\n", b"large.rs: not written: No space left on device\n"),
        )
        ran = mounted(
            small + 'mount -o remount,ro "$3" && "$1" a.rs; echo $?; cmp a.rs "$2"/a.rs && ls -A'
        )
        front.same(
            "a disk that is read only",
            (ran.stdout, ran.stderr),
            (b"1\na.rs\nlarge.rs\n", b"a.rs: not written: Read-only file system\n"),
        )

    def limited():
        import resource

        signal.signal(signal.SIGXFSZ, signal.SIG_IGN)
        resource.setrlimit(resource.RLIMIT_FSIZE, (5000, 5000))

    front.same(
        "files longer than may be",
        front.run("large.rs", "a.rs", cwd=folder, preexec_fn=limited),
        (1, b"", "large.rs: not written: File too large\n"),
    )
    front.same(
        "these files",
        ((folder / "large.rs").read_bytes(), (folder / "a.rs").read_bytes(), left(folder)),
        (large, NEW, []),
    )


def test_diffs(front):
    for program in ("diff", "patch"):
        if not shutil.which(program):
            return print(f"diffs: left out, since {program} isn't there")
    draw = random.Random(1)
    folder = front.folder()
    changed = lambda diff: sum(line[:1] in b"+-" for line in diff.split(b"\n")[2:] if line)
    for number in range(200):
        text = front.run(stdin=source(draw.randrange(1, 30), number))[1]
        if number % 2:
            # A text in which some lines are taken together, some are drawn in, and the last has no
            # end.
            lines = [
                line.replace(b"\n", b" ")
                if draw.random() < 0.2
                else b"  " + line
                if draw.random() < 0.2
                else line
                for line in text.splitlines(True)
            ]
            given = b"".join(lines).rstrip() if number % 4 == 1 else b"".join(lines)
        else:
            given = source(draw.randrange(1, 30), number)
        (folder / "a b.rs").write_bytes(given)
        text = front.run("--emit", "stdout", "a b.rs", cwd=folder)[1]
        status, diff, _ = front.run("--check", "a b.rs", cwd=folder)
        front.same(f"source {number} differs", status, int(given != text))
        if given == text:
            continue
        (folder / "wanted").write_bytes(text)
        ran = subprocess.run(
            ["patch", "--quiet", "-p0"], cwd=folder, input=diff, capture_output=True
        )
        front.same(
            f"patch of source {number}",
            (ran.returncode, ran.stdout + ran.stderr, (folder / "a b.rs").read_bytes()),
            (0, b"", text),
        )
        (folder / "a b.rs").write_bytes(given)
        least = subprocess.run(
            ["diff", "--unified", "--minimal", "a b.rs", "wanted"], cwd=folder, capture_output=True
        ).stdout
        front.same(f"lines of the diff of source {number}", changed(diff), changed(least))
    # A name that has to be quoted.
    name = 'a"\\\t\xe9.rs'
    (folder / name).write_bytes(OLD)
    diff = front.run("--check", name, cwd=folder)[1]
    subprocess.run(["patch", "--quiet", "-p0"], cwd=folder, input=diff, capture_output=True)
    front.same("patch of a name in quotes", (folder / name).read_bytes(), NEW)


def test_at_once(front):
    """Runs at once on one file, and ones whose temporary file is taken away."""
    old = source(300)
    new = front.run(stdin=old)[1]
    folder = front.folder()
    for _ in range(20):
        (folder / "a.rs").write_bytes(old)
        runs = [
            subprocess.Popen([front.command, "a.rs"], cwd=folder, stderr=subprocess.PIPE)
            for _ in range(8)
        ]
        ends = [(run.communicate()[1], run.returncode) for run in runs]
        front.same(
            "eight runs at once",
            (ends, (folder / "a.rs").read_bytes(), left(folder)),
            ([(b"", 0)] * 8, new, []),
        )
    over = threading.Event()
    taken = []

    def take():
        while not over.is_set():
            for name in left(folder):
                try:
                    (folder / name).unlink()
                    taken.append(name)
                except FileNotFoundError:
                    pass

    thread = threading.Thread(target=take)
    thread.start()
    for _ in range(20):
        (folder / "a.rs").write_bytes(old)
        end = front.run("a.rs", cwd=folder)
        found = (folder / "a.rs").read_bytes()
        wanted = [
            ((0, b"", ""), new),
            ((1, b"", "a.rs: not written: others change it meanwhile\n"), old),
        ]
        front.holds(f"a run whose temporary files are taken away: {end}", (end, found) in wanted)
    over.set()
    thread.join()
    front.same("no other file", left(folder), [])
    print(f"at once: {len(taken)} temporary files were taken away from 20 runs")


class Kills:
    """How runs that are killed leave a file and its folder."""

    def __init__(self, front):
        self.front = front
        self.old = source(600)
        self.new = front.run(stdin=self.old)[1]
        self.lock = threading.Lock()
        self.forget()

    def forget(self):
        self.counts = {
            "before the temporary file": 0,
            "with one left": 0,
            "behind the rename": 0,
            "not at all": 0,
        }

    def told(self):
        return ", ".join(f"{many} {what}" for what, many in self.counts.items())

    def killed(self, folder, kill):
        """Has `kill` run the command over a file and end it, and looks at what is left. Its answer
        and that of `kill` is whether the run was killed before its end."""
        path = folder / "a.rs"
        path.write_bytes(self.old)
        was_killed = kill(folder)
        found, temporary = path.read_bytes(), left(folder)
        with self.lock:
            self.front.holds(
                "a killed run leaves the old file or the new one", found in (self.old, self.new)
            )
            if not was_killed:
                self.front.same(
                    "a run that isn't killed", (found == self.new, temporary), (True, [])
                )
                self.counts["not at all"] += 1
            elif temporary:
                self.front.holds("a temporary file is left with the old file", found == self.old)
                self.counts["with one left"] += 1
            else:
                self.counts[
                    "before the temporary file" if found == self.old else "behind the rename"
                ] += 1
        if temporary:
            end = self.front.run("a.rs", cwd=folder)
            with self.lock:
                had = (end, path.read_bytes() == self.new, os.listdir(folder))
                self.front.same("the run behind a killed one", had, ((0, b"", ""), True, ["a.rs"]))
        return was_killed

    def at_drawn_moments(self, count, workers=4):
        """Every second run is killed within the time that runs take, the others within that which
        they take once their temporary file is seen."""

        def work(worker):
            draw, folder = random.Random(worker), self.front.folder()
            whole, writing = [], []
            middle = lambda times: sorted(times[-15:])[len(times[-15:]) // 2]

            def kill(folder):
                # Some runs are let go to their end, so that it is known how long they take by now.
                measured = len(whole) < 3 or draw.random() < 0.05
                since_seen = draw.random() < 0.5
                began = time.monotonic()
                run = subprocess.Popen(
                    [self.front.command, "a.rs"], cwd=folder, stderr=subprocess.DEVNULL
                )
                while (measured or since_seen) and run.poll() is None and not left(folder):
                    time.sleep(0.0005)
                seen = time.monotonic()
                if not measured:
                    time.sleep(draw.uniform(0, middle(writing if since_seen else whole)))
                    run.kill()
                if run.wait() == -signal.SIGKILL:
                    return True
                if measured:
                    whole.append(time.monotonic() - began)
                    writing.append(time.monotonic() - seen)
                return False

            kills = 0
            while kills < len(range(worker, count, workers)):
                kills += self.killed(folder, kill)

        self.forget()
        with concurrent.futures.ThreadPoolExecutor(workers) as pool:
            for done in [pool.submit(work, worker) for worker in range(workers)]:
                done.result()
        if count >= 200:
            self.front.holds(
                "kills at drawn moments leave temporary files",
                self.counts["with one left"] > count // 50,
            )
        print(f"kills: {count} at drawn moments: {self.told()}", flush=True)

    def at_each_call(self):
        """Kills a run at each call of the system, from the one that opens the file for writing."""
        if not shutil.which("strace"):
            return print("kills at each call of the system: left out, since strace isn't there")
        folder = self.front.folder(a=self.old)
        log = self.front.folder() / "log"
        subprocess.run(
            ["strace", "-o", log, self.front.command, "a.rs"], cwd=folder, check=True, timeout=600
        )
        calls = [line for line in log.read_text().splitlines() if re.match(r"\w+\(", line)]
        first = next(at for at, line in enumerate(calls) if "O_WRONLY" in line)
        names = [line.split("(")[0] for line in calls]
        self.forget()
        for at in range(first, len(names)):
            inject = f"inject={names[at]}:signal=KILL:when={names[:at + 1].count(names[at])}"

            def kill(folder):
                traced = ["strace", "-o", "/dev/null", "-e", inject, self.front.command, "a.rs"]
                return (
                    subprocess.run(
                        traced, cwd=folder, stderr=subprocess.DEVNULL, timeout=600
                    ).returncode
                    != 0
                )

            self.killed(folder, kill)
        self.front.holds(
            "kills at each call leave temporary files", self.counts["with one left"] > 5
        )
        self.front.holds(
            "kills at each call come behind the rename", self.counts["behind the rename"] > 1
        )
        print(
            f"kills: at each of the last {len(names) - first} calls of the system: {self.told()}",
            flush=True,
        )


TOP = pathlib.Path(__file__).resolve().parent.parent


def main():
    words = usage.words(__doc__, least=1, most=3, options=("--kills",))
    kills = 200
    if words[0] == "--kills":
        if len(words) != 3 or not words[1].isdigit():
            usage.refuse(__doc__)
        kills = int(words[1])
    elif len(words) != 1:
        usage.refuse(__doc__)
    if not os.access(words[-1], os.X_OK):
        usage.refuse(__doc__, f"not there: {words[-1]}")
    with tempfile.TemporaryDirectory() as name:
        folder = pathlib.Path(name)
        folder.chmod(0o755)
        command = str(folder / "froesaffron")
        shutil.copy(words[-1], command)
        front = Front(command, folder)
        for test in (
            test_words,
            test_messages,
            test_in_place,
            test_access,
            test_disk,
            test_diffs,
            test_at_once,
        ):
            test(front)
            print(f"{test.__name__}: {front.failed} failed", flush=True)
        Kills(front).at_drawn_moments(kills)
        Kills(front).at_each_call()
    print(f"front: {front.failed} failed")
    return 1 if front.failed else 0


if __name__ == "__main__":
    sys.exit(main())
