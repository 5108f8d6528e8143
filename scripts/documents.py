#!/usr/bin/env python3
"""Checks what can be checked in the documents against a built command and this repository.

usage: documents.py COMMAND

- The samples of README.md: what stands in each block `rust output` is what COMMAND gives of the block `rust input` before it. Each block of docs/STYLE.md is its own
  text. Each example in "Left out" of docs/GRAMMAR.md is refused, and tests/cases/left_out.jsonl has just these.
- What the commands of docs/COMMAND.md print, over the source before it, is what stands there, and the text between them is the source's.
- The clauses that README.md shows stand in crates/lay_front/src/command.rt, word for word; lines may
  be broken otherwise. The blocks `rust generator` of docs/BUILDING.md stand in the generator's source
  under examples/generator, and its blocks `rust generated` in what that prints, output.rs.
- No line of a document is longer than 100 columns, but a row of a table, which can't be broken.
  README.md has no row longer either, and at most 150 lines.
- The figures of README.md beside other formatters are those of docs/MOVING.md.
- The numbers of crates, of cases, of kinds of nesting and of lines of definitions are what is there.
- Each file that a document names between backquotes, or by its path in docs/, is there. The contents of docs/DECISIONS.md are its sections.
- Each page of docs/ is named in README.md. What docs/MOVING.md shows of examples/tokens stands there,
  and the text of its tokens is laid out.
- The oldest Rust of the crate is the one that its README, the package beside it and the workflow name.
- Each crate has a row in docs/ARCHITECTURE.md and in docs/PROVED.md, and a place in the graph. The
  table of what a new node costs has the files that node.py lists.
- Each row of the table of claims of docs/PROVED.md names clauses that stand in the sources.

A line tells each fault; the exit status is 0 where there is none.
"""
import json
import os
import pathlib
import re
import subprocess
import sys
import tempfile

import crates
import definitions
import node
import usage

TOP = pathlib.Path(__file__).resolve().parent.parent
DOCUMENTS = [TOP / "README.md", TOP / "CONTRIBUTING.md", *sorted((TOP / "docs").glob("*.md")), TOP / "tools/oracle/README.md", TOP / "rust/README.md",
             TOP / "SECURITY.md", TOP / "CHANGELOG.md", TOP / ".github/PULL_REQUEST_TEMPLATE.md"]
BLOCK = re.compile(r"^```(\S+)(?: (\S+))?\n(.*?)^```$", re.M | re.S)
NAMED = re.compile(r"`((?:crates|docs|examples|rust|scripts|tests|tools|c)/[\w./-]+)|\b(docs/\w+\.md)|\B(CONTRIBUTING\.md|CHANGELOG\.md|README\.md)\b")
# A clause in the table of claims: "`again` of `lay_reparse::reparse_law`", and "the clause of .." where
# it is a function's only one, without a name.
CLAUSE = re.compile(r"(?:`(\w+)`|the clause) of `(lay_\w+)::([\w:]+)`")
# A public function up to its body, and what it is a function of.
FUNCTION = re.compile(r"^( *)pub fn (\w+)\b(.*?)^\1\{", re.M | re.S)
OWNER = re.compile(r"^impl(?:<.*?>)? (?:\w+ for )?(\w+)", re.M)
KINDS = re.compile(r"^KINDS = \{\n(.*?)^\}", re.M | re.S)


def run(command, text):
    ran = subprocess.run([command], input=text.encode(), capture_output=True)
    return ran.returncode, ran.stdout.decode()


def wrong_samples(command):
    given = None
    for _, kind, text in BLOCK.findall((TOP / "README.md").read_text()):
        if kind == "input":
            given = text
        elif kind == "output" and run(command, given) != (0, text):
            yield f"README.md: not the output of {given[:40]!r}"
    for _, _, text in BLOCK.findall((TOP / "docs/STYLE.md").read_text()):
        if run(command, text) != (0, text):
            yield f"docs/STYLE.md: not its own text: {text[:60]!r}"


def wrong_refusals(command):
    section = (TOP / "docs/GRAMMAR.md").read_text().split("## Left out\n")[1].split("\n## ")[0]
    cells = [row.split(" | ", 1)[1] for row in section.splitlines() if row.startswith("| ") and " | `" in row]
    shown = [example.replace("\\|", "|") for cell in cells for example in re.findall(r"`([^`]+)`", cell)]
    cases = [json.loads(line)["in"] for line in (TOP / "tests/cases/left_out.jsonl").read_text().splitlines()]
    for example in shown:
        if run(command, example)[0] != 4:
            yield f"docs/GRAMMAR.md: not refused: {example}"
    for example in {*shown} ^ {*cases}:
        yield f"docs/GRAMMAR.md and left_out.jsonl: only one has {example}"


def wrong_commands(command):
    shown = {kind: text for _, kind, text in BLOCK.findall((TOP / "docs/COMMAND.md").read_text())}
    if run(command, shown["source"]) != (0, shown["text"]):
        yield "docs/COMMAND.md: not the text of the source"
    lines = shown["commands"].splitlines(keepends=True)
    with tempfile.TemporaryDirectory() as folder:
        (pathlib.Path(folder) / "generated.rs").write_text(shown["source"])
        os.symlink(command, pathlib.Path(folder) / "lay_fmt")
        paths = os.pathsep.join([folder, str(TOP / "examples"), os.environ["PATH"]])
        words = "".join(line[2:] for line in lines if line.startswith("$ "))
        ran = subprocess.run(["sh", "-ec", words], cwd=folder, env={**os.environ, "PATH": paths}, capture_output=True, text=True)
    if (ran.returncode, ran.stdout) != (0, "".join(line for line in lines if not line.startswith("$ "))):
        yield f"docs/COMMAND.md: the commands print {ran.stdout!r} and {ran.stderr!r}"


def wrong_clauses():
    source = " ".join((TOP / "crates/lay_front/src/command.rt").read_text().split())
    shown = [text for _, kind, text in BLOCK.findall((TOP / "README.md").read_text()) if kind == "contract"]
    clauses = [" ".join(clause.split()) for text in shown for clause in re.split(r"(?m)^(?=ensures )", text) if clause]
    if not clauses:
        yield "README.md: no clause"
    for clause in clauses:
        if not re.fullmatch(r"ensures \w+ \{ .* \}", clause) or clause not in source:
            yield f"README.md: not in command.rt: {clause[:60]!r}"


def wrong_generator():
    files = {"generator": "examples/generator/src/main.rs", "generated": "examples/generator/output.rs"}
    blocks = [(kind, text) for _, kind, text in BLOCK.findall((TOP / "docs/BUILDING.md").read_text()) if kind in files]
    for kind in files.keys() - {kind for kind, _ in blocks}:
        yield f"docs/BUILDING.md: no block of {files[kind]}"
    for kind, text in blocks:
        if text not in (TOP / files[kind]).read_text():
            yield f"docs/BUILDING.md: not in {files[kind]}: {text[:60]!r}"


def wrong_widths():
    """Lines that are too long, in columns. A row of a table can't be broken."""
    pages = [*DOCUMENTS, *sorted((TOP / "docs").glob("*.1"))]
    for page in pages:
        lines = page.read_text().splitlines()
        readme = page == TOP / "README.md"
        if readme and len(lines) > 150:
            yield f"README.md: {len(lines)} lines"
        for number, line in enumerate(lines, 1):
            if len(line) > 100 and (readme or not line.startswith("|")):
                yield f"{page.relative_to(TOP)}:{number}: {len(line)} columns"


def wrong_numbers():
    rooms = len(crates.named())
    by_file = {path.name: path.read_text().count("\n") for path in (TOP / "tests/cases").glob("*.jsonl")}
    by_hand = by_file["by_hand.jsonl"] + by_file["left_out.jsonl"]
    kinds = len(re.findall(r'^    "', KINDS.search((TOP / "scripts/stack.py").read_text())[1], re.M))
    files, lines = definitions.counts("lay_front/src/command.rt")
    numbers = {
        r"(\d[\d,]*) crates\b": {rooms},
        r"(\d[\d,]*) cases\b": {sum(by_file.values()), sum(by_file.values()) - by_hand},
        r"(\d[\d,]*)\s+whose answers were worked out by hand": {by_hand},
        r"(\d[\d,]*) kinds of\s+nesting": {kinds},
        r"(\d[\d,]*) files with \d[\d,]* lines of definitions": {files},
        r"\d[\d,]* files with (\d[\d,]*) lines": {lines},
    }
    for document in DOCUMENTS:
        for pattern, right in numbers.items():
            for number in re.findall(pattern, document.read_text()):
                if int(number.replace(",", "")) not in right:
                    yield f"{document.relative_to(TOP)}: {number} in {pattern!r} and not {' or '.join(map(str, right))}"


def wrong_figures():
    """What README.md has of a table of docs/MOVING.md has the same figures there."""
    readme, moving = ((TOP / page).read_text() for page in ("README.md", "docs/MOVING.md"))

    def cells(text, name):
        row = re.search(rf"^\| {name} \| (.*) \|$", text, re.M)
        return row[1].split(" | ") if row else []

    rows = {
        r"of [\d,]+ real files: refused": "refused",
        "panics": "panicked",
        "outputs that rustc can't parse": "the text isn't parsed by rustc",
        "outputs that a second run changes": "a second run changes the text",
    }
    for name, measured in rows.items():
        if not cells(readme, name) or cells(readme, name) != cells(moving, measured):
            yield f"README.md: not the figures of docs/MOVING.md: {name}"
    counts = [re.findall(pattern, text) for pattern, text in [(r"of ([\d,]+) real files", readme), (r"of ([\d,]+) files \|", moving)]]
    if counts[0] != counts[1]:
        yield f"README.md: not the count of files of docs/MOVING.md: {counts}"
    seconds, memory = cells(moving, "seconds of a core"), cells(moving, "peak memory, MiB")
    if cells(readme, "4 MB: seconds, peak MiB") != [f"{float(s):.2f}, {float(m):.0f}" for s, m in zip(seconds, memory)]:
        yield "README.md: not the seconds and MiB of docs/MOVING.md"


def wrong_names():
    for document in DOCUMENTS:
        for name in {"".join(found).rstrip("./") for found in NAMED.findall(document.read_text())}:
            if not (TOP / name).exists() and not re.search(r"/(?:out|target)\b", name):
                yield f"{document.relative_to(TOP)}: not there: {name}"


def wrong_node():
    """The table of what a new node costs has a row for each file of crates that scripts/node.py lists of its example."""
    section = (TOP / "docs/ARCHITECTURE.md").read_text().split("## What a new node costs\n")[1]
    shown = re.findall(r"^\| ([\w/+.]+\.\w+) \|", section, re.M)
    found = [str(path) for _, _, path, _ in node.found_in(["Glob"])]
    if shown != found:
        yield f"docs/ARCHITECTURE.md: what a new node costs: node.py Glob lists {', '.join(found)}"


def wrong_rows():
    """Each crate has a row of each table, and a place in the graph, and the longest chain is one."""
    architecture, proved = ((TOP / "docs" / name).read_text() for name in ("ARCHITECTURE.md", "PROVED.md"))
    graph = architecture.split("## The graph\n")[1].split("The longest chain")[0]
    below = crates.below()
    for crate in below:
        if not re.search(rf"^\| {crate} \|", architecture, re.M):
            yield f"docs/ARCHITECTURE.md: no row for {crate}"
        if not re.search(rf"^\| (?:\w+, )*{crate}(?:, \w+)* \|", proved, re.M):
            yield f"docs/PROVED.md: no row for {crate}"
        if not re.search(rf"(?<!\w){crate.removeprefix('lay_')}(?!\w)", graph):
            yield f"docs/ARCHITECTURE.md: {crate} isn't in the graph"
    length = {}
    for crate, its in below.items():
        length[crate] = 1 + max((length.get(other, 0) for other in its), default=0)
    tests = [crate for crate in below if crate.startswith("lay_test")]
    longest = max(length[crate] for crate in below if crate not in tests)
    told, names = re.search(r"The longest chain, of (\d+): ([^.]*)\.", architecture).groups()
    chain = ["lay_" + name for name in re.split(r",\s+", names)]
    if not (int(told) == longest == len(chain) and all(low in below[high] for low, high in zip(chain, chain[1:]))):
        yield f"docs/ARCHITECTURE.md: the longest chain has {longest} crates"


def clauses_of(crate, name):
    """The names of the clauses of a public function of a crate, "" of one without a name; or None where
    there is no such function, or not just one."""
    owner, _, function = name.rpartition("::")
    found = []
    for path in sorted((TOP / "crates" / crate / "src").rglob("*.rt")):
        text = path.read_text()
        for head in FUNCTION.finditer(text):
            owners = OWNER.findall(text, 0, head.start()) if head[1] else []
            if head[2] == function and (owners[-1] if owners else "") == owner:
                found.append(re.findall(r"^ *ensures (?:(\w+) )?\{", head[3], re.M))
    return found[0] if len(found) == 1 else None


def wrong_claims():
    """Each row of the table of claims names clauses, and all that stands between backquotes there is
    part of one."""
    sections = (TOP / "docs/PROVED.md").read_text().split("\n## The claims, each by one clause\n")
    rows = re.findall(r"^\| (.*) \| (.*) \|$", sections[-1].split("\n## ")[0], re.M) if len(sections) == 2 else []
    if rows[:1] != [("Claim", "Clause")] or not rows[1:]:
        yield "docs/PROVED.md: no table of claims"
    for claim, cell in rows[1:]:
        if "`" in CLAUSE.sub("", cell) or not CLAUSE.search(cell):
            yield f"docs/PROVED.md: no clause of a function: {cell}"
        for clause, crate, function in CLAUSE.findall(cell):
            its = clauses_of(crate, function)
            if its is None or (clause not in its if clause else its != [""]):
                yield f"docs/PROVED.md: {claim}: not there: {cell}"


def wrong_contents():
    """The table of contents of docs/DECISIONS.md names its sections, in order."""
    text = (TOP / "docs/DECISIONS.md").read_text()
    listed, headed = re.findall(r"^- \[(.*?)\]\(#", text, re.M), re.findall(r"^## (.*)$", text, re.M)
    if listed != headed:
        yield f"docs/DECISIONS.md: the contents list {listed} and not {headed}"


def wrong_pages():
    readme = (TOP / "README.md").read_text()
    for page in sorted((TOP / "docs").glob("*.md")):
        if f"docs/{page.name}" not in readme:
            yield f"README.md: docs/{page.name} isn't named"


def wrong_moving(command):
    blocks = BLOCK.findall((TOP / "docs/MOVING.md").read_text())
    example = " ".join((TOP / "examples/tokens/src/main.rs").read_text().split())
    for _, kind, text in blocks:
        if kind == "tokens" and run(command, text) != (0, text):
            yield "docs/MOVING.md: not its own text"
        if text.startswith("quote!") and " ".join(text.split()) not in example:
            yield "docs/MOVING.md: not in examples/tokens"


def wrong_versions():
    version = re.search(r'^rust-version = "(.*)"', (TOP / "rust/Cargo.toml").read_text(), re.M)[1]
    places = {
        "rust/README.md": f"Rust {version} and",
        "c/Cargo.toml": f'rust-version = "{version}"',
        ".github/workflows/check.yml": f'rust: ["{version}", stable]',
    }
    for path, said in places.items():
        if said not in (TOP / path).read_text():
            yield f"{path}: the oldest Rust is {version}"


def main():
    command, = usage.words(__doc__, least=1, most=1)
    if not os.access(command, os.X_OK):
        usage.refuse(__doc__, f"not there: {command}")
    command = os.path.abspath(command)
    checks = [
        wrong_widths(), wrong_figures(), wrong_samples(command), wrong_refusals(command), wrong_commands(command), wrong_clauses(),
        wrong_generator(), wrong_numbers(), wrong_names(), wrong_node(), wrong_rows(), wrong_contents(),
        wrong_claims(), wrong_pages(), wrong_moving(command), wrong_versions(),
    ]
    found = [fault for check in checks for fault in check]
    print(*found, sep="\n", end="\n" if found else "")
    return 1 if found else 0


if __name__ == "__main__":
    sys.exit(main())
