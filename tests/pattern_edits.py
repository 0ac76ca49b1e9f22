"""Edits of right patterns, and which hints are right after each: tests/run_messages tries them.

An edit drops, doubles or swaps a character or a word of a pattern, or puts one in. What it touched says which
remedies are right: a hint on quotes where a quote was touched, one on groups where a brace was, and so on.
RIGHT_TABLE says it of each habit of share/rosie/tools/advice.tsv.
"""
import re

WORD = re.compile(r"""(?P<comment>--[^\n]*) | (?P<quote>"(?:\\.|[^"\\])*")
    | (?P<bracket>\[(?:\\.|[^\[\]\\]|\[(?:\\.|[^\]\\])*\])*\]) | (?P<bounds>\{\s*\d*\s*,?\s*\d*\s*\})
    | (?P<macro>(?:find|findall|keepto|ci|uci|message|error):)
    | (?P<keyword>\b(?:rpl|package|import|as|alias|local|grammar|in|end)\b)
    | (?P<name>[A-Za-z]\w*(?:\.\w+)?) | (?P<number>\d+) | (?P<group>[(){}]) | (?P<predicate>[!<>])
    | (?P<quantifier>[*+?]) | (?P<choice>[/&]) | (?P<blank>\s+) | (?P<sign>.)""", re.VERBOSE)
# The words that are put in, each with its kind.
WORDS = {
    "choice": ['/', '&'],
    "predicate": ['!', '<', '>'],
    "quantifier": ['*', '+', '?'],
    "bounds": ['{2}', '{1,3}'],
    "macro": ['find:', 'ci:', 'keepto:'],
    "group": ['{', '}', '(', ')'],
    "keyword": ['in', 'end', 'import', 'as'],
    "number": ['7', '42'],
    "comment": ['-- x', '--', '#'],
    "sign": ['.', '~', '$', '^', ',', ';', '|', ':', '='],
    "quote": ['"a"', '""'],
    "bracket": ['[0-9]'],
    "name": ['abc', 'num.int'],
}
CHARACTERS = "\"'()[]{}/&*+?!<>.$^~:=,;|\\-#@_aZ0 "
# The kind of a single character. A character within a text, a bracket, a comment or a name is of that kind too.
KINDS = {"quote": "\"'", "group": "(){}", "bracket": "[]", "choice": "/&", "predicate": "!<>", "quantifier": "*+?",
         "backslash": "\\", "dash": "-", "comment": "#"}
SIGNS = {sign: kind for kind, signs in KINDS.items() for sign in signs}

# For each set of kinds the habits whose hints are right where one of these kinds was touched. `item` is touched where
# an item was put in, dropped or moved. A habit that isn't here is never right after an edit.
RIGHT_TABLE = """
, = comma
, bounds group number = bounds-order
. keyword macro name number = prefixed-name known-names two-dots hidden library-path similar-package
: = dash predicate = arrow
: backslash bracket = open-class
: keyword macro name number = similar-macro
: macro = macro-text
: macro name = macro-colon
: macro name quote = colon colon-of-text
; = semicolon
= = statement
_ name = underscore-name
backslash = class-in-bracket back-reference numbered-character escaped-sign digit word space word-boundary anchor
  control property no-digit no-word no-space
backslash bracket = open-bracket empty-bracket mixed-bracket regular-bracket backward-range class-name word-class
backslash bracket dash = bracket-difference dash-in-bracket
backslash quote = odd-quotes hidden-quote class-in-text sign-in-text short-escape high-byte backslash
  back-reference-text
blank bounds item quantifier = second-quantifier
blank item quantifier = glob
bounds choice group item macro predicate quantifier quote = empty-loop
bounds choice group item predicate quantifier = nothing-to-repeat
bounds group = open-group other-close extra-close
bounds group item = empty-group
bounds group number = open-bounds number-in-group bounds-size
bounds group number quote = number
bounds macro number predicate quantifier = size
bounds item predicate quantifier = behind-repetition behind-length
bounds quantifier = lazy possessive
bracket | = bracket-union
choice = double-slash slashes
choice comment item = choice-end
comment = comment-sign
comment dash = hidden-close
dash = dash-name
keyword macro name number = keyword similar-name left-recursion
keyword macro name number quote = text-without-quotes
keyword name = import-statement
macro predicate = halt
quantifier = flags plain-group look-ahead no-look-ahead look-behind no-look-behind named-group
quote = single-quotes
| = alternation
"""
ROWS = [line.rpartition(" = ")[::2] for line in RIGHT_TABLE.replace("\n  ", " ").strip().split("\n")]
RIGHT = {habit: set(kinds.split()) for kinds, habits in ROWS for habit in habits.split()}
ITEMS = {"quote", "bracket", "name", "macro", "number", "keyword"}


def cut(pattern):
    """The words of a pattern, each with its kind."""
    return [(found.lastgroup, found[0]) for found in WORD.finditer(pattern)]


def kinds_of(kind, text):
    """What is touched where a word is put in, dropped or moved."""
    made = {kind, *([SIGNS.get(text, text)] if kind == "sign" else [])}
    made |= {"item"} if kind in ITEMS or text in (".", "$", "^", "~") else set()
    return (made | held(text)) - {"sign"}


def held(text):
    """The signs in a word that stand for something else once they are no longer within it."""
    return {kind for sign, kind in (("\\", "backslash"), ('"', "quote")) if sign in text}


def kind_at(pattern, at):
    """The kinds that a character belongs to: its own, and that of the word that it is in."""
    made = {SIGNS.get(pattern[at], "number" if pattern[at].isdigit() else pattern[at])}
    for found in WORD.finditer(pattern):
        if found.start() <= at < found.end():
            made |= {found.lastgroup} | held(found[0])
            # A word of one character is an item that may be gone.
            made |= {"item"} if len(found[0]) == 1 and found.lastgroup in ITEMS or found[0] in ".$^~" else set()
    return made - {"sign"}


def edit_word(pick, pattern):
    """The pattern with a word dropped, doubled, swapped or put in, and what that touched."""
    words = cut(pattern)
    places = [i for i, (kind, _) in enumerate(words) if kind != "blank"]
    way, i = pick.choice(["drop", "double", "swap", "insert"]), pick.choice(places)
    touched = kinds_of(*words[i])
    if way == "drop":
        words[i: i + 1] = []
    elif way == "double":
        words[i: i] = [words[i], ("blank", " ")]
    elif way == "swap":
        later = [j for j in places if j > i]
        j = later[0] if later else places[0]
        touched |= kinds_of(*words[j])
        words[i], words[j] = words[j], words[i]
    else:
        word = pick.choice([(kind, text) for kind, texts in WORDS.items() for text in texts])
        touched = kinds_of(*word)
        words[i: i] = [word, ("blank", " ")] if pick.random() < 0.7 else [word]
    return "".join(text for _, text in words), touched


def edit_character(pick, pattern):
    """The pattern with a character dropped, doubled, swapped or put in, and what that touched."""
    way, at = pick.choice(["drop", "double", "swap", "insert"]), pick.randrange(len(pattern))
    touched = kind_at(pattern, at)
    if way == "drop":
        return pattern[:at] + pattern[at + 1:], touched
    if way == "double":
        return pattern[:at] + pattern[at] + pattern[at:], touched
    if way == "swap" and at + 1 < len(pattern):
        return pattern[:at] + pattern[at + 1] + pattern[at] + pattern[at + 2:], touched | kind_at(pattern, at + 1)
    sign = pick.choice(CHARACTERS)
    return pattern[:at] + sign + pattern[at:], touched | {SIGNS.get(sign, sign)}


def edit(pick, pattern):
    """One edit: the pattern after it, and the kinds of what it touched."""
    return (edit_word if pick.random() < 0.5 else edit_character)(pick, pattern)


def is_right(habit, touched):
    """Whether a hint on this habit is right after an edit that touched these kinds."""
    return bool(RIGHT.get(habit, set()) & touched)
