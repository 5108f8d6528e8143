"""The words of a script: where they ask for help or are wrong, its usage is told, and nothing else is done."""
import sys


def words(told, least=0, most=None, options=()):
    """The words that the script was given, which are at least and at most so many, and begin with a dash only where they are these
    options. `told` is what stands at the head of the script."""
    given = sys.argv[1:]
    if given in (["--help"], ["-h"]):
        print(paragraph(told))
        sys.exit(0)
    if len(given) < least or (most is not None and len(given) > most):
        refuse(told)
    for word in given:
        if word.startswith("-") and word not in options:
            refuse(told, f"no such option: {word}")
    return given


def refuse(told, *reasons):
    """Ends with the exit status 2, and says why on standard error, and the usage behind it."""
    print(*reasons, paragraph(told), sep="\n", file=sys.stderr)
    sys.exit(2)


def paragraph(told):
    return next(it for it in told.strip().split("\n\n") if it.startswith("usage:"))
