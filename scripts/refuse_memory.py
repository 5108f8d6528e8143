#!/usr/bin/env python3
"""Runs each test of a program of tests once for each allocation that it makes, with that one refused.

usage: refuse_memory.py PROGRAM [WORD]    of its tests those whose names have WORD

`scripts/unproved.sh PROGRAM FOLDER` builds the tests of a crate under tests/unproved, in a FOLDER that `scripts/unproved_tests.sh` has made.
`cc` compiles what stands before the allocator of the GNU C library: it
counts the calls, of which a test makes the same each time, and refuses one. A run in which one was refused must end
with an error that says so, NoMemory or, of a list that the test itself makes, std's own; or end well behind one line,
an answer and how many bytes were written, which the test has itself compared with the text. So a failed comparison, a
panic or an answer in place of the error is seen. The sweep over a test ends with the first run in which nothing was
refused, which must pass. For each test the script prints how many calls were refused, how many of these runs ended for
want of memory, and how many printed which line. Where bytes have to be written before memory was wanting (`PARTLY`), at
least one run must have done so."""
import collections, concurrent.futures, itertools, os, re, subprocess, sys, tempfile
import usage

# What a test writes that ends for want of memory.
ERRORS = ("error: NoMemory\n", "error: AllocError\n", "error: AllocFailed ")

# What the program of the tests ends with where a test passed.
PASSED = "\ntest result: ok\n"

# What a test prints that ends well although a call was refused: its answer, and how many bytes were written.
TOLD = re.compile(r"(\w+) (\d+)")

# Tests of which a run must answer NoMemory behind so many bytes, and how many these may be: a command that lays out all of its text
# before it writes any has none.
PARTLY = {"memory::run_over_a_long_last_name": range(801, 1049), "memory::run_over_a_last_list": range(801, 1015)}

# How many runs are begun before it is seen whether in one of them nothing was refused.
AT_ONCE = 64

# A refusal is told on the descriptor TELL.
ALLOCATOR = """
#include <stdlib.h>
#include <unistd.h>
extern void *__libc_malloc(size_t), *__libc_calloc(size_t, size_t), *__libc_realloc(void *, size_t);
static long refused = -1, calls;
static int refuses(void) {
    if (refused < 0) refused = atol(getenv("REFUSED"));
    if (++calls != refused) return 0;
    if (write(atoi(getenv("TELL")), "x", 1) != 1) abort();
    return 1;
}
void *malloc(size_t size) { return refuses() ? NULL : __libc_malloc(size); }
void *calloc(size_t count, size_t size) { return refuses() ? NULL : __libc_calloc(count, size); }
void *realloc(void *old, size_t size) { return refuses() ? NULL : __libc_realloc(old, size); }
"""


def allocator(folder):
    library = f"{folder}/allocator.so"
    words = ["cc", "-O2", "-fno-builtin", "-shared", "-fPIC", "-x", "c", "-", "-o", library]
    subprocess.run(words, input=ALLOCATOR.encode(), check=True)
    return library


def run(program, test, library, number):
    """Whether the call of this number was refused, and how the test ended."""
    told, tell = os.pipe()
    given = {**os.environ, "LD_PRELOAD": library, "REFUSED": str(number), "TELL": str(tell)}
    ran = subprocess.run([program, test], env=given, capture_output=True, pass_fds=(tell,), timeout=60)
    os.close(tell)
    with os.fdopen(told, "rb") as it:
        return it.read() != b"", ran.returncode, (ran.stdout + ran.stderr).decode(errors="replace").removesuffix(PASSED).strip()


def sweep(program, test, library):
    """The number of calls, the lines that were printed with how often each was, and the number of runs that ended otherwise than they
    must."""
    lines, wrong = collections.Counter(), 0
    with concurrent.futures.ThreadPoolExecutor(os.cpu_count()) as pool:
        for first in itertools.count(1, AT_ONCE):
            numbers = range(first, first + AT_ONCE)
            runs = pool.map(lambda number: run(program, test, library, number), numbers)
            for number, (was_refused, status, said) in zip(numbers, runs):
                told = TOLD.fullmatch(said)
                if was_refused and status == 0 and told:
                    lines[said] += 1
                elif not (said.startswith(ERRORS) and status == 101 if was_refused else status == 0):
                    wrong += 1
                    print(f"{test}: call {number}: status {status}: {said}")
                if not was_refused:
                    return number - 1, lines, wrong


def is_partly_written(test, lines):
    """Whether a run of a test wrote as much as it has to before memory was wanting."""
    told = [TOLD.fullmatch(line) for line in lines]
    return any(it[1] == "NoMemory" and int(it[2]) in PARTLY[test] for it in told)


def main():
    program, *words = usage.words(__doc__, least=1, most=2)
    if not os.access(program, os.X_OK):
        usage.refuse(__doc__, f"not there: {program}")
    program = os.path.abspath(program)
    listed = subprocess.run([program, "--list"], capture_output=True, text=True).stdout
    tests = [line.removesuffix(": test") for line in listed.splitlines() if line.endswith(": test")]
    failed = False
    with tempfile.TemporaryDirectory() as made:
        library = allocator(made)
        for test in tests:
            if all(word in test for word in words):
                calls, lines, wrong = sweep(program, test, library)
                ended = calls - wrong - sum(lines.values())
                print(f"{test}: {calls} refused in turn, {ended} ended for want of memory", flush=True)
                for line, count in lines.items():
                    print(f"    {line}: {count}", flush=True)
                if test in PARTLY and not is_partly_written(test, lines):
                    print(f"{test}: no run was without memory behind a part of the text")
                    failed = True
                failed |= wrong > 0
    sys.exit(failed)


main()
