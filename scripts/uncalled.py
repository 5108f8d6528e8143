#!/usr/bin/env python3
"""Lists the public functions that nothing outside their crate names: no other crate, proved test, example or script.

usage: uncalled.py

Of each crate under crates/ these are the functions that its lib.rt passes on or has in a public module, and the methods of the types
that it passes on so. Laws, which do nothing, are left out. A function is named where its name stands as a word in code, a method
where it stands behind a `.` or behind its type, and neither in a comment, in a contract or where it is only passed on. A line is
printed for each that isn't: the crate, and the name. The status is 1 where a line was printed.
"""
import functools, pathlib, re, sys
import usage

TOP = pathlib.Path(__file__).resolve().parent.parent
GHOST = re.compile(r"^\s*(?:requires|ensures|ghost)\b", re.M)
PASSED_ON = re.compile(r"^pub use ([^;]*);", re.M)
FUNCTION = re.compile(r"^( {4})?pub (?:const |unsafe )*fn (\w+)(?:<[^(]*>)?\(([^)]*)", re.M)
TYPE = re.compile(r"^impl(?:<.*?>)? (?:\w+::)*(\w+)(?:<.*>)?\s", re.M)


@functools.cache
def code_of(path):
    """The code of a file alone: no comments, no clauses and nothing that is ghost."""
    text = re.sub(r"//.*", "", path.read_text())
    kept, at = [], 0
    while found := GHOST.search(text, at):
        kept.append(text[at : found.start()])
        at = end_of(text, found.end())
    return "".join([*kept, text[at:]])


def end_of(text, at):
    """Where a clause ends: with the brace that closes its first one, and a `;` before or behind that."""
    depth = 0
    for found in re.compile(r"[{};]").finditer(text, at):
        depth += {"{": 1, "}": -1, ";": 0}[found[0]]
        if depth == 0:
            return found.end() + (text[found.end() : found.end() + 1] in (";", ","))
    return len(text)


def tests_of(code):
    """What stands under `#[test]` and `#[cfg(test)]`, up to the end of the item."""
    return "\n".join(re.findall(r"^#\[(?:test|cfg\(test\))\]\n.*?^\}", code, re.M | re.S))


def public_files(crate):
    """The files of a crate, by whether all in them that is public is public outside it."""
    public, files = {"lib"}, sorted((crate / "src").rglob("*.rt"))
    for path in sorted(files, key=lambda it: len(it.parts)):
        module = module_of(crate, path)
        if module in public:
            inner = "" if module == "lib" else module + "/"
            public |= {inner + name for name in re.findall(r"^pub mod (\w+);", path.read_text(), re.M)}
    return [(path, module_of(crate, path) in public) for path in files]


def module_of(crate, path):
    return str(path.relative_to(crate / "src").with_suffix(""))


def public_functions(crate):
    """Of each public function its type, if it is a method, its name and whether it is called on a value."""
    root = code_of(crate / "src/lib.rt")
    passed_on = set(re.findall(r"\w+", " ".join(PASSED_ON.findall(root))))
    for path, is_public in public_files(crate):
        code = code_of(path)
        types = [(found.start(), found[1]) for found in TYPE.finditer(code)]
        open_types = set(re.findall(r"^pub (?:struct|enum) (\w+)", code, re.M))
        for found in FUNCTION.finditer(code):
            method, name, given = found.groups()
            if re.match(r"\)\s*\{\}", code[found.end() :]):
                continue
            owner = [kind for start, kind in types if start < found.start()][-1:] if method else []
            if method and not owner:
                continue
            named = owner[0] if owner else name
            if named in passed_on or (is_public and (not owner or named in open_types)):
                yield named if owner else None, name, re.match(r"\s*&?(?:'\w+ )?(?:mut )?self\b", given) is not None


def names_in(text):
    """The words of a code, those behind a `.`, and those behind a type."""
    paths = re.findall(r"(?=\b(\w+)(?:::<[^>]*>)?::(\w+))", text)
    return {*re.findall(r"\w+", text), *re.findall(r"\.\w+", text), *map("::".join, paths)}


def outside():
    """The code that stands outside the crates: examples, scripts, the translator, and what the cargo crate has by hand. Tests that
    aren't proved don't count, since the gate doesn't run them."""
    paths = [path for folder in ("examples", "scripts", "tools/to_rust", "rust") for path in (TOP / folder).rglob("*")]
    kinds, made = (".rt", ".rs", ".py", ".sh"), {"generated", "target"}
    read = [path for path in paths if path.suffix in kinds and not made & set(path.parts) and path.name != "uncalled.py"]
    return "\n".join(map(code_of, read))


def main():
    usage.words(__doc__, most=0)
    code = {crate: [code_of(path) for path in (crate / "src").rglob("*.rt")] for crate in sorted(TOP.glob("crates/*"))}
    names = {crate: names_in("\n".join(PASSED_ON.sub("", text) for text in its)) for crate, its in code.items()}
    found_outside, uncalled = names_in(outside()), []
    for crate in code:
        if not (crate / "src/lib.rt").is_file():
            continue
        tests = names_in("\n".join(tests_of(text) for text in code[crate]))
        named = set().union(found_outside, tests, *(its for other, its in names.items() if other != crate))
        for owner, name, on_value in public_functions(crate):
            full = f"{owner}::{name}" if owner else name
            if full not in named and not (on_value and "." + name in named):
                uncalled.append(f"{crate.name}: {full}")
    print(*uncalled, sep="\n", end="\n" if uncalled else "")
    sys.exit(1 if uncalled else 0)


main()
