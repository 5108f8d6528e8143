#!/usr/bin/env python3
"""Measures the least stack with which a built command takes the deepest texts, a line for each kind of nesting.

usage: stack.py [--within KIB] COMMAND [KIND..]    COMMAND is one word, split at blanks; without a kind it goes through all of them

A text of a kind holds so many levels of it as the command takes with ample stack, or 10,000 where it takes any number. Then the least
stack with which it takes that text is found by halving, to 16 KiB. A line tells both, and what a level took on average. The last one
tells the greatest stack. With --within nothing is measured: each kind that the command doesn't take within so much stack, at its deepest or one
level deeper, where it is refused, is told by a line, and the exit status is 0 where there is none.
"""
import os, resource, shlex, subprocess, sys
import usage

KIB = 1 << 10
AMPLE, STEP = 256 << 20, 16 * KIB
ENOUGH, ANY = 1000, 10_000

BODY, VALUE, TYPE, PATTERN, FILE, USE = ("fn f(){", "}"), ("const A:T=", ";"), ("type A=", ";"), ("fn f(){let ", "=a;}"), ("", ""), ("use ", ";")
CONDITION = ("fn f(){if ", "{}}")

# The item around, what stands before and behind in each level, and what stands within.
KINDS = {
    # statements and blocks
    "block": (BODY, "{", "}", "b"),
    "block with a label": (BODY, "'a:{", "}", "b"),
    "unsafe": (BODY, "unsafe{", "}", "b"),
    "async": (BODY, "async{", "}", "b"),
    "const block": (BODY, "const{", "}", "b"),
    "if": (BODY, "if a{", "}", "b"),
    "if let": (BODY, "if let A=a{", "}", "b"),
    "else": (BODY, "if a{}else{", "}", "b"),
    "loop": (BODY, "loop{", "}", "b"),
    "while": (BODY, "while a{", "}", "b"),
    "while let": (BODY, "while let A=a{", "}", "b"),
    "for": (BODY, "for a in b{", "}", "b"),
    "let": (BODY, "let a={", "};", "b"),
    "let with if": (BODY, "let a=if b{", "};", "c"),
    "let with while": (BODY, "let a=while b{", "};", "c"),
    "let with for": (BODY, "let a=for b in c{", "};", "d"),
    "let with match": (BODY, "let a=match b{C=>{", "}};", "d;"),
    "let else": (BODY, "let A=a else{", "};", "b"),
    "match in an arm": (BODY, "match a{B=>", "}", "b"),
    "match in an arm's block": (BODY, "match a{B=>{c;", "}}", "b"),
    "guard": (BODY, "match a{B if ", "=>c}", "b"),
    "function": (BODY, "fn g(){", "}", "b"),
    "impl": (BODY, "impl A{fn g(){", "}}", "b"),
    "trait": (BODY, "trait A{fn g(){", "}}", "b"),
    "module in a body": (BODY, "mod a{fn g(){", "}}", "b"),
    "constant in a block": (VALUE, "{const A:T=", ";}", "b"),
    # heads of what ends in a block
    "condition": (BODY, "if ", "{}", "b"),
    "condition of a while": (BODY, "while ", "{}", "b"),
    "link of a condition": (BODY, "if let A=", "&&b{}", "c"),
    "last link of a condition": (BODY, "if a&&let B=", "{}", "c"),
    "link of a condition of a while": (BODY, "while let A=", "&&b{}", "c"),
    "closure as a condition": (CONDITION, "||", "", "b"),
    "closure in braces as a condition": (CONDITION, "||{", "}", "b"),
    "condition in a closure": (BODY, "if ||", "{}", "b"),
    "condition in a closure in braces": (BODY, "if ||{", "}{}", "b"),
    "what a match is of": (BODY, "match ", "{}", "b"),
    "what a for goes over": (BODY, "for a in ", "{}", "b"),
    # values
    "closure": (BODY, "||", "", "b"),
    "closure with a block": (BODY, "||{c;", "}", "b"),
    "closure with parameters": (VALUE, "|a:B|", "", "1"),
    "closure with a type": (VALUE, "||->T{", "}", "1"),
    "closure in braces": (VALUE, "||{", "}", "1"),
    "closure in two pairs of braces": (VALUE, "||{{", "}}", "1"),
    "operator in a closure": (VALUE, "||-", "", "1"),
    "operator in a closure in braces": (VALUE, "||{-", "}", "1"),
    "closure in an arm": (BODY, "match a{B=>||", "}", "b"),
    "parentheses": (VALUE, "(", ")", "1"),
    "tuple": (VALUE, "(", ",)", "1"),
    "array": (VALUE, "[", "]", "1"),
    "repeated": (VALUE, "[", ";2]", "1"),
    "call": (VALUE, "a(", ")", "1"),
    "method call": (VALUE, "a.b(", ")", "1"),
    "call of a call": (VALUE, "(", ")()", "a"),
    "chain of methods": (VALUE, "", ".a()", "1"),
    "index": (VALUE, "a[", "]", "1"),
    "field": (VALUE, "(", ").a", "b"),
    "question mark": (VALUE, "(", ")?", "b"),
    "struct literal": (VALUE, "S{a:", "}", "1"),
    "base of a struct literal": (VALUE, "S{..", "}", "1"),
    "unary": (VALUE, "-(", ")", "1"),
    "unary alone": (VALUE, "-", "", "1"),
    "reference": (VALUE, "&mut (", ")", "1"),
    "operator": (VALUE, "1+(", ")", "1"),
    "two operators": (VALUE, "a+(b*(", "))", "1"),
    "operator alone": (VALUE, "1+", "", "1"),
    "comparison": (VALUE, "a==(", ")", "1"),
    "assignment": (VALUE, "a=(", ")", "1"),
    "assignment alone": (VALUE, "a=", "", "1"),
    "cast": (VALUE, "(", ")as B", "1"),
    "type of a cast": (("const A:T=1 as ", ";"), "A<", ">", "B"),
    "range": (VALUE, "(..", ")", "1"),
    "return": (VALUE, "return ", "", "1"),
    "break": (VALUE, "break ", "", "1"),
    "generic argument": (("const A:T=a::<", ">;"), "B<", ">", "C"),
    # types
    "type: reference": (TYPE, "&", "", "B"),
    "type: pointer": (TYPE, "*const ", "", "B"),
    "type: slice": (TYPE, "[", "]", "B"),
    "type: array": (TYPE, "[", ";1]", "B"),
    "type: parentheses": (TYPE, "(", ")", "B"),
    "type: tuple": (TYPE, "(", ",)", "B"),
    "type: argument": (TYPE, "B<", ">", "C"),
    "type: binding": (TYPE, "B<C=", ">", "D"),
    "type: bound": (TYPE, "B<C:", ">", "D"),
    "type: of a trait": (TYPE, "<", " as B>::C", "D"),
    "type: trait's argument": (TYPE, "<B as C<", ">>::D", "E"),
    "type: function": (TYPE, "fn(", ")", "B"),
    "type: output": (TYPE, "fn()->", "", "B"),
    "type: dyn": (TYPE, "dyn B<", ">", "C"),
    "type: Fn": (TYPE, "dyn Fn(", ")", "B"),
    "type: impl": (TYPE, "impl B<", ">", "C"),
    # patterns
    "pattern: reference": (PATTERN, "&", "", "b"),
    "pattern: parentheses": (PATTERN, "(", ")", "b"),
    "pattern: tuple": (PATTERN, "(", ",)", "b"),
    "pattern: slice": (PATTERN, "[", "]", "b"),
    "pattern: tuple struct": (PATTERN, "A(", ")", "b"),
    "pattern: struct": (PATTERN, "A{a:", "}", "b"),
    "pattern: behind a name": (PATTERN, "a@(", ")", "b"),
    "pattern: alternatives": (PATTERN, "(a|", ")", "b"),
    # items
    "module": (FILE, "mod a{", "}", "struct A;"),
    "use tree": (USE, "a::{", "}", "b"),
    "use tree with more": (USE, "a::{b,", ",c}", "d"),
    # token lists
    "tokens: group": (FILE, "m!{", "}", ""),
    "tokens: group in a call": (("m!{", "}"), "(", ")", "a"),
    "tokens: group in an attribute": (("#[a(", ")]struct A;"), "[", "]", "b"),
    "tokens: group in a value": (("const A:T=m!(", ");"), "{", "}", "a"),
    # no nesting: lists of their own node
    "comments": (FILE, "/*", "*/", ""),
}


def text(kind, levels):
    (begin, end), before, behind, inner = KINDS[kind]
    return (begin + before * levels + inner + behind * levels + end).encode()


def status(command, data, stack):
    """The exit status of the command for a text with so much stack."""

    def limited():
        resource.setrlimit(resource.RLIMIT_STACK, (stack, stack))

    # what stands in the environment lies on the stack
    ran = subprocess.run(command, input=data, stdout=subprocess.DEVNULL, stderr=subprocess.DEVNULL, env={}, preexec_fn=limited)
    return ran.returncode


def takes(command, data, stack=AMPLE):
    """Whether the command takes a text with so much stack."""
    return status(command, data, stack) == 0


def greatest(holds, low, high):
    """The greatest number below `high` for which a test holds, that holds of `low` and, of each for which it holds, of all lesser ones."""
    while high - low > 1:
        middle = (low + high) // 2
        low, high = (middle, high) if holds(middle) else (low, middle)
    return low


def deepest(command, kind):
    """The most levels that the command takes, or `ANY` where it takes so many."""
    if takes(command, text(kind, ENOUGH)):
        return ANY
    if not takes(command, text(kind, 1)):
        sys.exit(f"the command doesn't take one level of: {kind}")
    return greatest(lambda levels: takes(command, text(kind, levels)), 1, ENOUGH)


def least_stack(command, data):
    return STEP * (1 + greatest(lambda steps: not takes(command, data, steps * STEP), 0, AMPLE // STEP))


def dies(command, kind, stack):
    """Whether the command ends otherwise than with its answer, within so much stack, for the deepest text of a kind or for one that is refused."""
    levels = deepest(command, kind)
    deeper = [] if levels == ANY else [(levels + 1, 4)]
    return any(status(command, text(kind, many), stack) != wanted for many, wanted in [(levels, 0), *deeper])


def main():
    given = usage.words(__doc__, least=1, options=("--within",))
    within = None
    if given[0] == "--within":
        if len(given) < 3 or not given[1].isdigit():
            usage.refuse(__doc__, "KIB is a number, and a command stands behind it")
        within, given = int(given[1]), given[2:]
    command, kinds = shlex.split(given[0]), given[1:]
    if unknown := [kind for kind in kinds if kind not in KINDS]:
        usage.refuse(__doc__, f"no kinds: {', '.join(unknown)}", f"the kinds are: {', '.join(KINDS)}")
    if within is not None:
        dead = [kind for kind in kinds or KINDS if dies(command, kind, within * KIB)]
        for kind in dead:
            print(f"{kind}: takes more than {within} KiB")
        return 1 if dead else 0
    found = {}
    for kind in kinds or KINDS:
        levels = deepest(command, kind)
        found[kind] = least_stack(command, text(kind, levels))
        print(f"{kind:30} {levels:6} levels {found[kind] // KIB:7} KiB {found[kind] / levels / KIB:8.2f} KiB a level", flush=True)
    kind = max(found, key=found.get)
    print(f"greatest: {found[kind] / KIB / KIB:.1f} MiB, {kind}")
    return 0


sys.exit(main())
