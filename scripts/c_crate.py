#!/usr/bin/env python3
"""Builds the libraries of c/ by cargo alone, and tests them: c/test.c over each of the two, under
valgrind and with the address sanitizer where these are there; what they do with null pointers and
lengths that no memory has; and examples/lay.py.

usage: c_crate.py [FOLDER]

FOLDER is one with liblay.so and liblay.a, which are then tested as they are. It needs a C compiler
as `cc`, and cargo where no FOLDER is named. A line tells each fault; the exit status is 0 where
there is none.
"""
import ctypes
import pathlib
import shutil
import subprocess
import sys
import tempfile
import threading

import usage

TOP = pathlib.Path(__file__).resolve().parent.parent
sys.path.append(str(TOP / "examples"))
import lay  # noqa: E402

SOURCE = "struct A;struct B{a:u8}"
TEXT = "struct A;\nstruct B {\n    a: u8,\n}\n"
WARNINGS = ["-Wall", "-Wextra", "-Werror", "-O1", "-I", str(TOP / "c")]
VALGRIND = ["valgrind", "--quiet", "--error-exitcode=9", "--leak-check=full",
            "--errors-for-leak-kinds=definite"]
NO_MEMORY = 5


def ran(words, **more):
    """Why a program fails, or nothing."""
    done = subprocess.run(words, stdout=subprocess.PIPE, stderr=subprocess.STDOUT, text=True, **more)
    told = f"{' '.join(map(str, words))} ended with {done.returncode}:\n{done.stdout}"
    return told if done.returncode else None


def sanitizes(folder):
    """Whether the compiler has the address sanitizer."""
    (folder / "empty.c").write_text("int main(void) { return 0; }\n")
    return not ran(["cc", "-fsanitize=address", "-o", folder / "empty", folder / "empty.c"])


def programs(libraries, folder):
    """c/test.c, built in each way, with the words that run it."""
    shared = [libraries / "liblay.so", f"-Wl,-rpath,{libraries}"]
    # A shared library that has a name of its own is looked for by that.
    (folder / "liblay.so.0").symlink_to(libraries / "liblay.so")
    shared.append(f"-Wl,-rpath,{folder}")
    static = [libraries / "liblay.a", "-lpthread", "-ldl", "-lm"]
    yield "static, C99", [*WARNINGS, "-std=gnu99"], static, []
    yield "static, C11", [*WARNINGS, "-std=gnu11"], static, []
    yield "shared", WARNINGS, shared, []
    if shutil.which("valgrind"):
        yield "under valgrind", WARNINGS, static, VALGRIND
    else:
        print("c_crate.py: valgrind is left out, since it isn't there")
    if sanitizes(folder):
        yield "with the address sanitizer", [*WARNINGS, "-g", "-fsanitize=address"], static, []
    else:
        print("c_crate.py: the address sanitizer is left out, since cc doesn't have it")


def wrong_tests(libraries, folder):
    source, text = folder / "source.rs", folder / "text.rs"
    source.write_text(SOURCE)
    text.write_text(TEXT)
    for way, words, linked, run_by in programs(libraries, folder):
        program = folder / "test"
        fault = ran(["cc", *words, "-o", program, TOP / "c/test.c", *linked])
        fault = fault or ran([*run_by, program, source, text])
        if fault:
            yield f"{way}: {fault}"


def wrong_arguments(library):
    """A null pointer is one to no bytes, and a length that no memory has is want of it."""
    def fault(what, answer, *wanted):
        found = (answer.status, answer.length, answer.at, answer.line, answer.column)
        return [] if found == wanted else [f"{what}: {found} and not {wanted}"]

    call, given = library.call, SOURCE.encode()
    buffer = ctypes.create_string_buffer(b"\xa5" * 8, 8)
    yield from fault("no input", call(None, 5, buffer, 8), 0, 0, 0, 0, 0)
    yield from fault("no buffer", call(given, len(given), None, 1 << 40), 0, len(TEXT), 0, 0, 0)
    yield from fault("neither", call(None, 0, None, 0), 0, 0, 0, 0, 0)
    for length in (1 << 63, (1 << 64) - 1):
        yield from fault(f"{length} bytes", call(given, length, buffer, 8), NO_MEMORY, 0, 0, 0, 0)
    if buffer.raw != b"\xa5" * 8:
        yield "a buffer was written without a text"
    # The input's own memory takes the text, as far as it fits.
    both = ctypes.create_string_buffer(given, 64)
    answer = call(both, len(given), both, 64)
    yield from fault("input and buffer are one", answer, 0, len(TEXT), 0, 0, 0)
    if both.raw[:len(TEXT)] != TEXT.encode():
        yield "input and buffer are one: another text"


def wrong_threads(library):
    """Several calls at a time, from threads with little stack, over a source that is deep."""
    deep = "const A: u8 = " + "(" * 254 + "1" + ")" * 254 + ";\n"
    faults = []

    def calls():
        try:
            for _ in range(5):
                if library.format(deep) != deep or library.format(SOURCE) != TEXT:
                    faults.append("threads: another text")
        except lay.Refused as refused:
            faults.append(f"threads: {refused}")
    threading.stack_size(64 * 1024)
    threads = [threading.Thread(target=calls) for _ in range(8)]
    for thread in threads:
        thread.start()
    for thread in threads:
        thread.join()
    return faults


def wrong_example(path, folder):
    """What examples/lay.py answers."""
    program = [sys.executable, TOP / "examples/lay.py", path]
    rows = [
        (SOURCE, (0, TEXT, "")),
        ("", (0, "", "")),
        ("struct A;\nstruct", (4, "", "2:1: no item\n")),
        ("fn f(", (4, "", "1:5: unbalanced delimiter\n")),
        # The text is more than twice as long as the source, and so than the first buffer.
        ("mod a{mod b{mod c{mod d{" + "fn e(){}" * 60 + "}}}}",
         (0, "mod a {\n    mod b {\n        mod c {\n            mod d {\n" + " " * 16
          + ("fn e() {}\n" + " " * 16) * 59 + "fn e() {}\n            }\n        }\n    }\n}\n", "")),
    ]
    for given, wanted in rows:
        done = subprocess.run(program, input=given.encode(), capture_output=True)
        found = done.returncode, done.stdout.decode(), done.stderr.decode()
        if found != wanted:
            yield f"examples/lay.py: {found} and not {wanted}"
    (folder / "lay.rs").write_text(SOURCE)
    done = subprocess.run([*program, folder / "lay.rs"], capture_output=True)
    if done.stdout.decode() != TEXT:
        yield f"examples/lay.py: {done}"


def main():
    words = usage.words(__doc__, most=1)
    libraries = pathlib.Path(words[0]).resolve() if words else TOP / "c/target/release"
    if not words:
        build = ["cargo", "build", "--quiet", "--release", "--offline", "--target-dir", "target"]
        if fault := ran(build, cwd=TOP / "c"):
            print(fault)
            return 1
    with tempfile.TemporaryDirectory() as made:
        folder = pathlib.Path(made)
        library = lay.Library(str(libraries / "liblay.so"))
        faults = [*wrong_tests(libraries, folder), *wrong_arguments(library), *wrong_threads(library),
                  *wrong_example(libraries / "liblay.so", folder)]
    print(*faults, sep="\n", end="\n" if faults else "")
    return 1 if faults else 0


if __name__ == "__main__":
    sys.exit(main())
