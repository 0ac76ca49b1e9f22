"""What the programs tests/compare/run and tests/compare/planted share: asking the built program, asking LPeg, weighing
both.
"""
import argparse
import collections
import itertools
import os
import re
import shlex
import subprocess

import generate

HERE = os.path.dirname(os.path.abspath(__file__))
PROGRAM = os.environ.get("ROSIE", os.path.join(HERE, "..", "..", "crates", "rosie", "out", "rosie"))
BLOCK = 20                 # so many seeds make one text
TAGS = "ABCDEFGHIJKLMNOPQRSTUVWXYZ"
BUDGET = "100000"          # steps; a line that takes more is passed over
SECONDS = 10               # so long LPeg may take for some things at once, and for one
AT_ONCE = 25               # blocks for one process of Lua

# Patterns that are compared as one text: for each seed the words that say it alone, and for each line its seed, the
# line and what the program answers.
Group = collections.namedtuple("Group", "words cores lines answers")
# A grammar with its marks or without: what the program says of it, `accepted` or a cause, and its cores.
Check = collections.namedtuple("Check", "seed words marks said cores")


class Tally:
    """What was found in some blocks."""

    def __init__(self):
        self.counts = collections.Counter()
        self.over = collections.Counter()
        self.differences = []

    def add(self, other):
        self.counts += other.counts
        self.over += other.over
        self.differences += other.differences

    def differs(self, seed, words, what, line=None):
        given = "" if line is None else f"printf '%s\\n' {shlex.quote(line)} | "
        self.differences.append((seed, f"seed {seed}: {given}rosie {shlex.join(words)}\n    {what}"))


def rosie(words, given=""):
    return subprocess.run([PROGRAM, *words], input=given.encode(), capture_output=True, timeout=600, check=False)


def expect(done, statuses):
    if done.returncode not in statuses:
        raise SystemExit(f"compare: status {done.returncode} of {shlex.join(done.args)}: {done.stderr.decode()!r}")


def expanded(rules, pattern):
    """The lines of cores, or what is said against the pattern."""
    done = rosie(["expand", "--rpl", rules, pattern])
    if done.returncode == 2:
        return None, done.stderr.decode().strip()
    expect(done, (0,))
    return done.stdout.decode().rstrip("\n").split("\n")[1:], ""


def answers(rules, pattern, lines):
    """What the program writes of each line: a tree, `no`, or the fault that it tells of the line."""
    done = rosie(["match", "-o", "json", "-a", "--steps", "--budget", BUDGET, "--rpl", rules, pattern],
                 "".join(line + "\n" for line in lines))
    expect(done, (0, 1, 3))
    trees = iter(done.stdout.decode().split("\n"))
    said = iter(done.stderr.decode().split("\n"))
    found = []
    for line in lines:
        first = next(said)
        if first.startswith("rosie: "):
            found.append("limit: " + first.split(": ")[-1])
        elif first.startswith("steps "):
            found.append(next(trees))
        else:
            if first != line or not next(said).startswith("steps "):
                raise SystemExit(f"compare: what is this? {done.stderr!r}")
            found.append("no")
    if next(trees) or next(said):
        raise SystemExit(f"compare: more was written than there are lines: {done.stdout!r} {done.stderr!r}")
    return found


def tagged(seed, case):
    """The case behind a letter, but for the seeds that stand by themselves."""
    tag = TAGS[seed % BLOCK]
    if seed % BLOCK == 0:
        return case
    return generate.Case(case.rules, f'{{"{tag}" {case.pattern}}}', [tag + line for line in case.lines])


def group(own, cases, tally):
    """The group of these pairs of a seed and a case; where the text is refused, a group for each."""
    rules = own + " ".join(case.rules for _, case in cases)
    pattern = " / ".join(case.pattern for _, case in cases)
    cores, fault = expanded(rules, pattern)
    if cores:
        words = {seed: ["match", "--rpl", own + case.rules, case.pattern] for seed, case in cases}
        lines = [(seed, line) for seed, case in cases for line in case.lines]
        yield Group(words, cores, lines, answers(rules, pattern, [line for _, line in lines]))
    elif len(cases) > 1:
        for one in cases:
            yield from group(own, [one], tally)
    else:
        tally.over["refused by rosie: " + cause(fault)] += 1


def cause(said):
    """What is said for or against a grammar, without names and places."""
    if "left recurs" in said:
        return "left recursion"
    if "empty loop" in said or "loop body may accept empty" in said:
        return "empty loop"
    return re.sub("^rosie: .*?:[0-9]+: | in .*|: .*", "", said) or "accepted"


def checks(own, seed, tally):
    """A grammar with its marks, and without them. Without, its cores are those with marks, where each mark takes
    nothing.
    """
    case = generate.marked(seed)
    with_marks, fault = expanded(own + case.rules, case.pattern)
    if not with_marks:
        tally.over["refused by rosie: " + cause(fault)] += 1
        return
    yield Check(seed, ["expand", "--rpl", own + case.rules, case.pattern], True, "accepted", with_marks)
    rules, pattern = own + case.rules.replace(generate.MARK, '""'), case.pattern.replace(generate.MARK, '""')
    without = [line.replace("(set 1)", "(seq)") for line in with_marks]
    cores, fault = expanded(rules, pattern)
    words = ["expand", "--rpl", rules, pattern]
    if cores and cores != without:
        tally.differs(seed, words, "isn't what it was with marks, but for these")
    yield Check(seed, words, False, cause(fault), without)


def asked(block, seeds, tally):
    """What the program says of the seeds of a block."""
    own = generate.boundary(block)
    seeds = [seed for seed in range(block * BLOCK + 1, block * BLOCK + BLOCK + 1) if seed in seeds]
    cases = [(seed, tagged(seed, generate.made(seed, str(seed)))) for seed in seeds if seed % BLOCK != BLOCK // 2]
    found = []
    for together in ([one for one in cases if one[0] % BLOCK], [one for one in cases if one[0] % BLOCK == 0]):
        if together:
            found += group(own, together, tally)
    for seed in seeds:
        if seed % BLOCK == BLOCK // 2:
            found += checks(own, seed, tally)
    return found


def stream(things):
    """What meaning.lua is given."""
    for thing in things:
        lines = [line for _, line in thing.lines] if isinstance(thing, Group) else []
        yield f"case {len(thing.cores)} {len(lines)}\n"
        yield from (line + "\n" for line in itertools.chain(thing.cores, lines))


def lpeg(things, plant):
    """What LPeg says of each thing: of its grammar, and of each of its lines."""
    words = ["lua5.4", os.path.join(HERE, "meaning.lua")]
    words += [os.path.join(HERE, "planted.lua"), plant] if plant else []
    try:
        done = subprocess.run(words, input="".join(stream(things)).encode(), stdout=subprocess.PIPE,
                              timeout=SECONDS, check=True)
    except subprocess.TimeoutExpired:
        # LPeg has no budget, and for some patterns its time doubles with each level.
        if len(things) > 1:
            return [said for thing in things for said in lpeg([thing], plant)]
        late = f"limit: not done after {SECONDS} seconds"
        return [(late, [late for _ in (thing.lines if isinstance(thing, Group) else [])]) for thing in things]
    said = iter(done.stdout.decode(errors="replace").split("\n"))
    return [(next(said), [next(said) for _ in (thing.lines if isinstance(thing, Group) else [])]) for thing in things]


def weigh_check(check, said, tally):
    if cause(said) not in ("accepted", "left recursion", "empty loop"):
        tally.over["LPeg: " + cause(said)] += 1
    elif (check.said == "accepted") != (said == "accepted"):
        tally.differs(check.seed, check.words, f"rosie: {check.said}\n    LPeg:  {said}")
    elif check.said not in ("accepted", "left recursion", "empty loop"):
        tally.over["refused by rosie: " + check.said] += 1
    elif not check.marks:
        tally.counts["without marks"] += 1
        tally.counts["by both " + check.said] += 1
        tally.counts["other cause"] += check.said != cause(said)


def weigh_group(one, said, lines, tally):
    if said != "accepted":
        if "left recurs" in said or "empty" in said:
            tally.differs(min(one.words), one.words[min(one.words)], f"LPeg:  {said}")
        else:
            tally.over["LPeg: " + said.removeprefix("refused: ")] += len(one.words)
        return
    tally.counts["patterns"] += len(one.words)
    tally.counts["by themselves"] += len(one.words) == 1
    for (seed, line), ours, theirs in zip(one.lines, one.answers, lines):
        if ours.startswith("limit: ") or theirs.startswith("limit: "):
            limit = "rosie: " + ours if ours.startswith("limit: ") else "LPeg: " + theirs
            tally.over["line, " + limit.replace("limit: ", "")] += 1
            continue
        tally.counts["lines"] += 1
        tally.counts["matched"] += ours != "no"
        if ours != theirs:
            tally.differs(seed, one.words[seed], f"rosie: {ours}\n    LPeg:  {theirs}", line)


def weigh(things, said, tally):
    for thing, (grammar, lines) in zip(things, said):
        if isinstance(thing, Check):
            weigh_check(thing, grammar, tally)
        else:
            weigh_group(thing, grammar, lines, tally)


def compared(work):
    """The tally of some blocks."""
    blocks, seeds, plant = work
    tally = Tally()
    things = [thing for block in blocks for thing in asked(block, seeds, tally)]
    weigh(things, lpeg(things, plant), tally)
    return tally


def missing():
    """What is needed and isn't there, in words, or nothing."""
    if not os.access(PROGRAM, os.X_OK):
        return "the program isn't built (make build)"
    try:
        done = subprocess.run(["lua5.4", "-e", "require 'lpeg'"], capture_output=True, check=False)
    except FileNotFoundError:
        return "lua5.4 isn't installed (Debian has it as lua5.4)"
    return "" if done.returncode == 0 else "LPeg for Lua 5.4 isn't installed (Debian has it as lua-lpeg)"


def parts(seeds):
    """The blocks of the seeds, so many at once."""
    blocks = range((seeds[0] - 1) // BLOCK, (seeds[-1] - 1) // BLOCK + 1)
    return [blocks[at:at + AT_ONCE] for at in range(0, len(blocks), AT_ONCE)]


def words(purpose, default):
    """Reads the words of the command line."""
    given = argparse.ArgumentParser(description=purpose)
    given.add_argument("-j", "--jobs", type=int, default=os.cpu_count(), help="so many processes at once")
    given.add_argument("--plant", metavar="NAME", help="a fault of planted.lua")
    given.add_argument("--where-installed", action="store_true", help="pass over all where LPeg isn't installed")
    given.add_argument("seeds", nargs="?", default=default, metavar="FIRST-LAST")
    given = given.parse_args()
    first, last = (int(number) for number in given.seeds.split("-"))
    given.seeds = range(first, last + 1)
    return given
