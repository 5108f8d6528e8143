#!/usr/bin/env python3
"""Times a command on inputs that double from 1 to 16 MiB, a line for each kind of input.

usage: scale.py [--instructions] COMMAND [KIND..]    COMMAND is one word, split at blanks; without a kind it goes through all of them
       scale.py --make KIND BYTES                    writes one input to standard output, of at most so many bytes

A line tells the seconds on a core at each size, the growth from half the greatest size to the greatest over that of the
size (1.0 is linear), the peak memory at the greatest size in times the input, and the exit statuses. Each time is the
least of three runs, or of one that takes more than two seconds. With --instructions it tells millions of instructions in
place of seconds, as valgrind's callgrind counts them, which don't depend on what else the machine does.
"""
import itertools, os, random, re, shlex, subprocess, sys, tempfile

sys.path.append(os.path.join(os.path.dirname(os.path.abspath(__file__)), os.pardir))
import usage

MIB = 1 << 20
SIZES = [MIB, 2 * MIB, 4 * MIB, 8 * MIB, 16 * MIB]
RUNS, LONG = 3, 2.0

STEMS = ["size", "value", "node_list", "HandlerKind", "OPENSSL_", "xcb", "t", "pointer_to"]


def name(chance):
    return f"{chance.choice(STEMS)}{chance.randrange(10000)}"


def tree(chance, depth):
    """A use tree: a name, a renamed one, all names, or a list."""
    path = "".join(name(chance) + "::" for _ in range(chance.randrange(3)))
    if depth > 0 and chance.random() < 0.3:
        return path + "{" + ",".join(tree(chance, depth - 1) for _ in range(chance.randrange(1, 6))) + "}"
    return path + chance.choice(["*", name(chance), name(chance), f"{name(chance)} as {name(chance)}"])


def item(chance, depth):
    """An item with documentation and attributes, as a generator of bindings would print it."""
    before = ["", "", "/// What it is for, in words.\n", '#[doc = " The count of its parts"]\n', "#[repr_c]\n", '#[path = "part/of.rs"]\n']
    head = chance.choice(before) + chance.choice(before)
    kind = chance.randrange(7)
    if kind < 3:
        return f"{head}struct {name(chance)};\n"
    if kind < 6 or depth == 0:
        return f"{head}use {chance.choice(['', '::', 'crate::', 'self::'])}{tree(chance, 3)};\n"
    return f"{head}mod {name(chance)} {{\n" + "".join(item(chance, depth - 1) for _ in range(chance.randrange(1, 9))) + "}\n"


def repeated(unit):
    """An input that is units, each made from its number and a source of chance that is the same in each run."""

    def make(size):
        chance, parts, done = random.Random(1), [], 0
        for number in itertools.count():
            part = unit(number, chance)
            done += len(part)
            if done > size:
                return "".join(parts)
            parts.append(part)

    return make


def names(size):
    return ",".join(f"n{number:06x}" for number in range(size // 8))


def token(chance):
    """A few tokens of a macro call, as a generator would print them."""
    return chance.choice([
        name(chance), name(chance) + ",", str(chance.randrange(1000)) + ";", f"{name(chance)} += {name(chance)};", f"&{name(chance)}.field,",
        f"{name(chance)}::new({name(chance)}, -1),", f"#[{name(chance)}]", f"{name(chance)}[{chance.randrange(9)}] => {{{name(chance)}}}",
        f'"text of {name(chance)}",', f"$({name(chance)}: ty),*", f"parse::<Vec<{name(chance)}>>()?;", f"if {name(chance)} == 'a' {{ return 1.5e3; }}",
        f"/// {name(chance)} in words\n", f"impl<'a> {name(chance)} for &'a mut {name(chance)} {{}}",
    ])


def tokens(size):
    return repeated(lambda _, chance: token(chance) + " ")(size)


def nested(size):
    """A macro call whose groups nest, a level in forty bytes: 200,000 of them in eight million."""
    level = "(" + "a, bb + ccc; d::e, ".ljust(38)
    depth = (size - 4) // 40
    return "m!(" + level * depth + ")" * depth + ");"


KINDS = {
    # accepted: all is read and laid out
    "structs": repeated(lambda number, _: f"struct Name{number};\n"),
    "mixed": repeated(lambda _, chance: item(chance, 6)),
    "fits": repeated(lambda _, chance: f"use a::b::{{bread,butter,jam,{name(chance)}}};\n"),
    "breaks": repeated(lambda _, chance: "use a::b::{" + ",".join(name(chance) for _ in range(12)) + "};\n"),
    "docs": repeated(lambda _, chance: f"/// {name(chance)} has some words behind it, as a comment of a header has.\nstruct A;\n"),
    "attributes": lambda size: "#[a]" * ((size - 9) // 4) + "struct A;",
    "path": lambda size: "use " + "a::" * ((size - 6) // 3) + "a;",
    "one_mod": lambda size: "mod a{" + "struct A;" * ((size - 7) // 9) + "}",
    "long_use": lambda size: "use a::{" + names(size - 16) + "};",
    "never_fits": lambda size: "use " + "{a,b," * 200 + names(size - 1300) + "}" * 200 + ";",
    "nested_use": repeated(lambda _, __: "use " + "a::{b," * 254 + "c" + "}" * 254 + ";\n"),
    "long_name": lambda size: "struct " + "a" * (size - 8) + ";",
    "doc_block": lambda size: "/**" + "\n * x" * ((size - 16) // 5) + "\n*/struct A;",
    "macro_call": lambda size: "m!{" + tokens(size - 4) + "}",
    "nested_groups": nested,
    # gaps alone, which are accepted as an empty file
    "blanks": lambda size: " " * size,
    "line_ends": lambda size: "\r\n" * (size // 2),
    "comment": lambda size: "//" + "x" * (size - 2),
    "comments_in_comments": lambda size: "/*" * (size // 4) + "*/" * (size // 4),
    # refused
    "openers": lambda size: "(" * size,
    "closers": lambda size: "}" * size,
    "pairs": lambda size: "(" * (size // 2) + ")" * (size // 2),
    "marks": lambda size: "=" * size,
    "slashes": lambda size: "/ " * (size // 2),
    "string": lambda size: '"' + "a" * (size - 2) + '"',
    "raw_string": lambda size: "r" + "#" * 255 + '"' + ('"' + "#" * 254) * ((size - 512) // 255) + '"' + "#" * 255,
    "numbers": lambda size: "1_000.5e-3 " * (size // 11),
    "lifetimes": lambda size: "'a " * (size // 3),
    "refused_late": lambda size: "struct A;" * ((size - 1) // 9) + "x",
}


def run(words, path):
    with open(path, "rb") as given, open(os.devnull, "wb") as taken:
        process = subprocess.Popen(words, stdin=given, stdout=taken, stderr=subprocess.DEVNULL)
        _, status, usage = os.wait4(process.pid, 0)
        return usage.ru_utime + usage.ru_stime, usage.ru_maxrss * 1024, os.waitstatus_to_exitcode(status)


def least(words, path):
    runs = [run(words, path)]
    while runs[0][0] < LONG and len(runs) < RUNS:
        runs.append(run(words, path))
    return min(runs)


def instructions(words, path):
    """Millions of instructions that a command takes on an input."""
    with open(path, "rb") as given:
        counted = ["valgrind", "--tool=callgrind", "--callgrind-out-file=/dev/null", *words]
        ran = subprocess.run(counted, stdin=given, stdout=subprocess.DEVNULL, stderr=subprocess.PIPE, text=True)
    return int(re.search(r"Collected : (\d+)", ran.stderr)[1]) / 1e6


def line(words, kind, path, is_counted):
    costs, statuses = [], []
    for size in SIZES:
        # another process makes it, since the memory of this one is counted with that of its children
        with open(path, "wb") as file:
            subprocess.run([sys.executable, __file__, "--make", kind, str(size)], stdout=file, check=True)
        core, memory, status = run(words, path) if is_counted else least(words, path)
        costs.append(instructions(words, path) if is_counted else core)
        statuses.append(status)
    growth = costs[-1] / max(costs[-2], 1e-9) / 2
    told = " ".join(f"{it:7.0f}" for it in costs) + " M" if is_counted else " ".join(f"{it:7.3f}" for it in costs) + " s"
    return f"{kind:20} {told}  growth {growth:4.2f}  {memory / os.path.getsize(path):6.1f} times the input  status {' '.join(map(str, statuses))}"


def main():
    command, *kinds = usage.words(__doc__, least=1, options=("--make", "--instructions"))
    if command == "--make" and len(kinds) == 2 and kinds[0] in KINDS and kinds[1].isdigit():
        sys.stdout.write(KINDS[kinds[0]](int(kinds[1])))
        return
    is_counted = command == "--instructions"
    if is_counted and kinds:
        command, *kinds = kinds
    if command.startswith("--") or any(kind not in KINDS for kind in kinds):
        usage.refuse(__doc__, f"the kinds are: {', '.join(KINDS)}")
    words, kinds = shlex.split(command), kinds or KINDS
    with tempfile.TemporaryDirectory() as folder:
        for kind in kinds:
            print(line(words, kind, f"{folder}/input", is_counted), flush=True)


main()
