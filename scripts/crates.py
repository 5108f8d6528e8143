"""Which crates there are, and on which of them each stands, by crates.txt."""
import pathlib

TOP = pathlib.Path(__file__).resolve().parent.parent


def named(top=TOP):
    """Of each crate the libraries that it names, of this repository and of the toolchain, in the
    order of crates.txt."""
    found = {}
    for line in (pathlib.Path(top) / "crates.txt").read_text().splitlines():
        head, _, names = line.split("#")[0].partition(":")
        if head.strip():
            found[head.split()[0]] = names.split()
    return found


def below(top=TOP):
    """The same, lowest first: each crate after those that it stands on."""
    libraries, found = named(top), {}

    def add(crate):
        if crate not in found:
            for other in libraries[crate]:
                if other in libraries:
                    add(other)
            found[crate] = libraries[crate]

    for crate in libraries:
        add(crate)
    return found


def lower(crate, top=TOP):
    """The crates of this repository that one stands on, directly or not, lowest first."""
    libraries = below(top)
    found = {crate}
    for name in reversed(libraries):
        if name in found:
            found.update(libraries[name])
    return [name for name in libraries if name in found and name != crate]
