#!/usr/bin/env python3
"""Runs the command for each of its exit statuses, 0 to 8.

usage: exit_statuses.py COMMAND    COMMAND is one word, split at blanks

It prints one line a case: the status that is wanted, the one that was had, and what was run. The exit status is 0
where no case differs. The files that it needs lie in a folder of their own, which it removes.
"""
import os, resource, shlex, subprocess, sys, tempfile
import usage

PLAIN = b"struct A;\n"
MOST = 16 << 20
LITTLE_MEMORY = 64 << 20


def files(folder):
    """Writes the files, and gives the path of each name."""
    texts = {
        "formatted": PLAIN,
        "unformatted": b"struct  A ;",
        "refused": b"struct struct",
        "not_text": b"struct A;\xff",
        "many_items": PLAIN * 20000,
        "most_items": PLAIN * 500000,
        "long_as_may_be": b"\n" * MOST,
        "too_long": b"\n" * (MOST + 1),
        "missing": None,
    }
    paths = {}
    for name, text in texts.items():
        paths[name] = os.path.join(folder, name + ".rs")
        if text is not None:
            with open(paths[name], "wb") as file:
                file.write(text)
    return paths


def nowhere():
    return os.open(os.devnull, os.O_WRONLY)


def full_device():
    return os.open("/dev/full", os.O_WRONLY)


def closed_pipe():
    reader, writer = os.pipe()
    os.close(reader)
    return writer


def little_memory():
    resource.setrlimit(resource.RLIMIT_AS, (LITTLE_MEMORY, LITTLE_MEMORY))


def status(command, words, stdin=os.devnull, stdout=nowhere, before=None):
    """The exit status of one run: `stdin` is a path, and `stdout` makes what standard output is."""
    given = os.open(stdin, os.O_RDONLY)
    taken = stdout()
    done = subprocess.run(
        command + words, stdin=given, stdout=taken, stderr=subprocess.DEVNULL, preexec_fn=before, timeout=600
    )
    os.close(given)
    os.close(taken)
    return done.returncode


def cases(path, folder):
    """What is wanted, what is run in words, and how it is run."""
    file = lambda name: {"words": [path[name]]}
    check = lambda name: {"words": ["--check", path[name]]}
    mapped = lambda name, **more: {"words": ["--map", path[name]], **more}
    piped = lambda name, **more: {"words": [], "stdin": path[name], **more}
    return [
        (0, "a file", file("unformatted")),
        (0, "standard input", piped("unformatted")),
        (0, "an input of 16 MiB", piped("long_as_may_be")),
        (0, "--check of a file that is formatted", check("formatted")),
        (0, "--check of standard input that is formatted", {**piped("formatted"), "words": ["--check"]}),
        (0, "--map of a file", mapped("unformatted")),
        (1, "--check of a file that isn't formatted", check("unformatted")),
        (1, "--check of standard input that isn't formatted", {**piped("unformatted"), "words": ["--check"]}),
        (2, "an unknown flag", {"words": ["--unknown"]}),
        (2, "two files", {"words": [path["formatted"], path["formatted"]]}),
        (2, "--help", {"words": ["--help"]}),
        (3, "a file that isn't there", file("missing")),
        (3, "a folder in place of a file", {"words": [folder]}),
        (3, "a folder as standard input", {"words": [], "stdin": folder}),
        (4, "a file with no item", file("refused")),
        (4, "standard input with no item", piped("refused")),
        (4, "standard input that is no UTF-8", piped("not_text")),
        (4, "--check of a file with no item", check("refused")),
        (5, "a full device", piped("unformatted", stdout=full_device)),
        (5, "a full device, and more than is gathered", piped("many_items", stdout=full_device)),
        (5, "--map, and a full device", mapped("unformatted", stdout=full_device)),
        (5, "a closed pipe", piped("unformatted", stdout=closed_pipe)),
        (5, "a closed pipe, and more than is gathered", piped("many_items", stdout=closed_pipe)),
        (6, "a file of one byte more than 16 MiB", file("too_long")),
        (6, "standard input of one byte more than 16 MiB", piped("too_long")),
        (6, "--map of a file of one byte more than 16 MiB", mapped("too_long")),
        (7, "little memory", piped("most_items", before=little_memory)),
        (8, "a word that is no UTF-8", {"words": [b"\xff"]}),
    ]


def main():
    (command,) = usage.words(__doc__, least=1, most=1)
    command = shlex.split(command)
    differing = 0
    with tempfile.TemporaryDirectory() as folder:
        for wanted, name, run in cases(files(folder), folder):
            had = status(command, **run)
            differing += had != wanted
            verdict = "ok" if had == wanted else "DIFFERS"
            print("%-7s wanted %d, had %d: %s" % (verdict, wanted, had, name), flush=True)
    sys.exit(1 if differing else 0)


main()
