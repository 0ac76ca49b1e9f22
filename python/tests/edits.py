"""Made-up edits of the packages in examples/, the same in each run."""
import glob
import os
import random

from helper import EXAMPLES

FRAGMENTS = ['"', "[", "]", "{", "}", "(", ")", "{4", "{ 1,2}", "\\", "--", "=", " ", "\n", "local ", "alias ",
             "grammar ", "in ", "end ", "import num as . ", "~", "é", '"\\q"', "99999999999999999999", "a", ".",
             "a.b", "/", "rpl 1.4 ", "package x ", "import ", "as ", ",", "{,}", "!", "x = ", "end.a", "a.end", "\t",
             "\r", "find:", "_", "1", '"a" ', "[:alpha:]", "[a-z]", "😀", "\0", "<", "{256}", "[z-a]", "[:no:]", "[]",
             "-- test x accepts"]


def sources():
    """The texts of the packages."""
    texts = []
    for path in sorted(glob.glob(os.path.join(EXAMPLES, "*.rpl"))):
        with open(path, encoding="utf-8") as file:
            texts.append(file.read())
    return texts


def edit(chance, text):
    """The text with one edit: something put in, taken out, or moved."""
    at = chance.randrange(len(text) + 1)
    kind = chance.random()
    if kind < 0.5:
        return text[:at] + chance.choice(FRAGMENTS) + text[at:]
    if kind < 0.8:
        return text[:at] + text[at + chance.randrange(1, 8):]
    start = chance.randrange(len(text) + 1)
    return text[:at] + text[start:start + chance.randrange(1, 20)] + text[at:]


def edited(seed, count):
    """So many edited texts: mostly pieces of packages, with one edit or a few."""
    chance = random.Random(seed)
    texts = sources()
    for _ in range(count):
        text = chance.choice(texts)
        if chance.random() < 0.9:
            lines = text.split("\n")
            middle = chance.randrange(len(lines))
            text = "\n".join(lines[max(0, middle - 10): middle + 15])
        for _ in range(chance.choice([1, 1, 2, 3])):
            text = edit(chance, text)
        yield text
