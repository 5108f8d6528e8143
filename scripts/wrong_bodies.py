#!/usr/bin/env python3
"""Tries wrong bodies that the proofs have to refuse, beyond those that the gate tries.

usage: wrong_bodies.py FOLDER [CRATE..]
       wrong_bodies.py --drawn    tries a sample of 20
       wrong_bodies.py            tells only which edits no longer fit the code, and tries none

The gate tries the edits under crates/CRATE/must-fail, which cost it most of a minute each. Those under tests/wrong_bodies/CRATE are of the
same kind: a line `file:` and pairs of lines `old:` and `new:`. This makes FOLDER, which must not be there, a clone of what is
committed, puts the edits of the named crates, or of all, among the others there, and has `rt must-fail` try them. It ends with a
status other than 0 where one of them doesn't fit the code, was proved, or couldn't be tried.

With --drawn it tries 20 of them over the libraries that the gate left behind, which not every toolchain
does: the status is 3 where one isn't there. The day of the last commit draws crates, of those whose
proof takes at most 130 seconds by docs/GATE.md, and of these their edits, until there are 20. Each
crate is proved once in a copy, and what that kept is where the check of each of its edits begins.
RT_JOBS in the environment is the number of crates at once, or else it is 2.
"""
import concurrent.futures, os, pathlib, random, re, shutil, subprocess, sys, tempfile
import crates, usage

TOP = pathlib.Path(__file__).resolve().parent.parent
EDITS = TOP / "tests/wrong_bodies"

# How many edits are drawn, and the most seconds of a crate's proof that such an edit is in.
COUNT, SECONDS = 20, 130

# The exit status where there is nothing to try over, which is no fault.
NOT_THERE = 3


def pairs(edit):
    """The lines that an edit replaces, each with its file in the crate and what it puts there."""
    file = old = None
    for word, rest in re.findall(r"^(file|old|new): ?(.*)$", edit.read_text(), re.M):
        if word == "file":
            file = rest
        elif word == "old":
            old = rest
        else:
            yield file, old, rest


def misfits(edit):
    """The lines of an edit that are to be replaced and don't stand in its file just once."""
    for name, old, _ in pairs(edit):
        file = TOP / "crates" / edit.parent.name / name
        if not file.is_file() or file.read_text().count(old) != 1:
            yield f"old: {old}"


def cheap():
    """The crates whose proof takes few enough seconds."""
    rows = re.findall(r"^\| (lay_\w+) \| (\d+) \|", (TOP / "docs/GATE.md").read_text(), re.M)
    return [crate for crate, seconds in rows if int(seconds) <= SECONDS]


def draw():
    """Edits, by the day of the last commit: those of some crates, and of the last of these some."""
    day = subprocess.run(["git", "log", "-1", "--format=%cs"], cwd=TOP, capture_output=True, text=True, check=True).stdout.strip()
    dice = random.Random(day)
    named = {folder.name for folder in EDITS.iterdir()}
    few = sorted(named.intersection(cheap()))
    drawn = []
    for crate in dice.sample(few, len(few)):
        its = sorted((EDITS / crate).glob("*.edit"))
        drawn += dice.sample(its, min(len(its), COUNT - len(drawn)))
    dear = sorted(named.difference(few))
    print(f"{day}: {len(drawn)} of {sum(len(list((EDITS / it).glob('*.edit'))) for it in named)} are drawn; never any of {', '.join(dear)}", flush=True)
    return drawn


def library(crate):
    return TOP / "crates" / crate / "out/rlib" / f"{crate}.rlib"


class Copy:
    """A crate as it stands, in a folder of its own, where it is proved and its edits are tried."""

    def __init__(self, crate, room):
        kit = pathlib.Path(shutil.which("rt")).resolve().parent.parent
        self.room, self.crate = room / crate, crate
        for part in ("src", "specs", "proofs"):
            if (TOP / "crates" / crate / part).is_dir():
                shutil.copytree(TOP / "crates" / crate / part, self.room / part)
        lower, of_kit = crates.lower(crate), f"{kit}/rlibs"
        words = ["--crate-name", crate, "src/lib.rt", "-L", f"dependency={of_kit}"]
        for name in ["std", *crates.named()[crate]]:
            words += ["--extern", f"{name}={library(name) if name in lower else f'{of_kit}/{name}.rlib'}"]
        for name in lower:
            words += ["-L", f"dependency={library(name).parent}"]
        words += ["--antt-project", f"{kit}/rattle/logic/antt-project.json", "--logic-built", f"{kit}/logic_built"]
        self.check = [f"{kit}/bin/rattle", "check", *words, "--jobs", "1"]
        # A toolchain that keeps nothing checks each time from nothing.
        told = subprocess.run([f"{kit}/bin/rattle", "check", "--help"], stdin=subprocess.DEVNULL, capture_output=True, text=True)
        self.keeps = "--incremental" in told.stdout + told.stderr
        (self.room / "kept").mkdir()

    def checked(self, kept):
        words = ["--incremental", kept] if self.keeps else []
        ran = subprocess.run([*self.check, *words], cwd=self.room, stdin=subprocess.DEVNULL, stdout=subprocess.PIPE, stderr=subprocess.STDOUT)
        return ran.returncode, ran.stdout.decode(errors="replace").strip().splitlines() or [""]

    def refuses(self, edit):
        """Whether the proofs refuse an edit, and what is said of it."""
        right = {name: (self.room / name).read_text() for name, _, _ in pairs(edit)}
        for name, old, new in pairs(edit):
            file = self.room / name
            file.write_text(file.read_text().replace(old, new))
        shutil.copytree(self.room / "kept", self.room / "tried")
        status, lines = self.checked(self.room / "tried")
        for name, text in right.items():
            (self.room / name).write_text(text)
        shutil.rmtree(self.room / "tried")
        is_refused = status == 1 and lines[-1].startswith("logic=not-proved")
        how = "refused" if is_refused else "PROVED" if status == 0 else f"NOT TRIED, status {status}"
        first = next((line for line in lines if ": error" in line), lines[0])
        return is_refused, f"{self.crate}/{edit.stem}: {how}: {first[:160]}"


def tried(crate, edits, room):
    """Of the edits of a crate whether the proofs refuse all."""
    copy = Copy(crate, room)
    status, lines = copy.checked(copy.room / "kept")
    if status:
        print(f"{crate}: isn't proved as it stands: {lines[-1][:160]}", flush=True)
        return False
    are_refused = True
    for edit in edits:
        is_refused, said = copy.refuses(edit)
        print(said, flush=True)
        are_refused &= is_refused
    shutil.rmtree(copy.room)
    return are_refused


def try_drawn():
    of = {}
    for edit in draw():
        of.setdefault(edit.parent.name, []).append(edit)
    lower = {name for crate in of for name in crates.lower(crate)}
    if missing := sorted(name for name in lower if not library(name).is_dir()):
        print(f"wrong_bodies.py: rt ci makes these, and they aren't there: {' '.join(missing)}", file=sys.stderr)
        sys.exit(NOT_THERE)
    with tempfile.TemporaryDirectory() as room, concurrent.futures.ThreadPoolExecutor(int(os.environ.get("RT_JOBS", 2))) as pool:
        ended = list(pool.map(lambda it: tried(*it, pathlib.Path(room)), of.items()))
    sys.exit(not all(ended))


def main():
    words = usage.words(__doc__, options=("--drawn",))
    misfit = [f"{edit.relative_to(TOP)}: {line}" for edit in sorted(EDITS.glob("*/*.edit")) for line in misfits(edit)]
    if misfit or not words:
        sys.exit("\n".join(misfit) or 0)
    if "--drawn" in words:
        try_drawn() if words == ["--drawn"] else usage.refuse(__doc__)
    clone, wanted = pathlib.Path(words[0]), words[1:]
    subprocess.run(["git", "clone", "--quiet", TOP, clone], check=True)
    named = [folder.name for folder in sorted((clone / "tests/wrong_bodies").iterdir()) if not wanted or folder.name in wanted]
    if missing := set(wanted) - set(named):
        sys.exit(f"no wrong bodies for {', '.join(sorted(missing))}")
    for crate in named:
        goal = clone / "crates" / crate / "must-fail"
        goal.mkdir(exist_ok=True)
        for edit in (clone / "tests/wrong_bodies" / crate).glob("*.edit"):
            shutil.copy(edit, goal)
    sys.exit(subprocess.run(["rt", "must-fail", *named], cwd=clone).returncode)


main()
