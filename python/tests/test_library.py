"""The library beside the command: what it answers, how it streams, and how its processes end."""
import copy
import io
import json
import multiprocessing
import os
import pickle
import resource
import signal
import subprocess
import sys
import tempfile
import threading
import time
import unittest

from helper import COLUMNS, EXAMPLES, PYTHON, alive, children, command

import rosie
from rosie.tree import read_deep_tree, read_tree, record_of, write_tree

RULES = 'day = {[0-9]{4} "-" [0-9]{2}} level = [:upper:]+ entry = {day " " level}'
LINE = "2024-03 INFO start"
LONGEST_LINE = 16777216


def trees(answers):
    """Answers in a form that compares: the tree, None, or the cause."""
    return [answer.to_dict() if isinstance(answer, rosie.Match) else answer and answer.cause for answer in answers]


class Matches(unittest.TestCase):
    """What a match says of its parts and places."""

    def setUp(self):
        self.pattern = rosie.Pattern("entry", rpl=RULES)
        self.addCleanup(self.pattern.close)

    def test_parts(self):
        found = self.pattern.match(LINE)
        self.assertEqual((found.type, found.text, found.span), ("entry", "2024-03 INFO", (0, 12)))
        self.assertEqual([(part.type, part.text, part.span) for part in found.parts],
                         [("day", "2024-03", (0, 7)), ("level", "INFO", (8, 12))])
        self.assertEqual(found["level"].text, "INFO")
        self.assertEqual(str(found["day"]), "2024-03")
        self.assertEqual(found.line, LINE)

    def test_names(self):
        found = self.pattern.match(LINE)
        self.assertIn("day", found)
        self.assertNotIn("hour", found)
        self.assertIsNone(found.get("hour"))
        with self.assertRaises(KeyError):
            found["hour"]
        with self.assertRaises(TypeError):
            iter(found)

    def test_names_of_packages(self):
        found = rosie.Pattern("net.ip", libpath=[EXAMPLES]).match("10.0.0.9 x")
        self.assertEqual([found[name].text for name in ("net.ip", "ip", "ipv4", "net.ipv4")], ["10.0.0.9"] * 4)
        self.assertNotIn("v4", found)

    def test_no_match(self):
        self.assertIsNone(self.pattern.match("INFO"))

    def test_all_and_walk(self):
        made = rosie.Pattern('{word {"," word}*}', rpl="letter = [a-z] word = {letter letter}").match("ab,cd")
        self.assertEqual([word.text for word in made.all("word")], ["ab", "cd"])
        self.assertEqual([part.text for part in made.walk()], ["ab,cd", "ab", "a", "b", "cd", "c", "d"])

    def test_characters_and_bytes(self):
        pattern = rosie.Pattern('{"é€" word}', rpl="word = [[a-z][😀]]+")
        found = pattern.match("é€a😀b!")
        self.assertEqual(found["word"].byte_span, (5, 11))
        self.assertEqual(found["word"].span, (2, 5))
        self.assertEqual(found.line[2:5], "a😀b")

    def test_dict_is_what_the_command_prints(self):
        printed = command("match", "--rpl", RULES, "entry", text=LINE.encode()).stdout
        found = self.pattern.match(LINE)
        self.assertEqual(found.to_dict(), json.loads(printed))
        found.to_dict()["subs"].clear()
        self.assertEqual(len(found.parts), 2)

    def test_pretty(self):
        self.assertEqual(self.pattern.match(LINE).pretty(), 'entry "2024-03 INFO"\n  day "2024-03"\n  level "INFO"')

    def test_record(self):
        self.assertEqual(self.pattern.match(LINE).record(), {"day": "2024-03", "level": "INFO"})
        many = rosie.Pattern('{level {" " level}*}', rpl="level = [:upper:]+")
        self.assertEqual(many.match("A B C").record(), {"level": ["A", "B", "C"]})
        self.assertEqual(rosie.Pattern('"a"').match("a").record(), {})

    def test_message_has_no_span(self):
        found = rosie.Pattern('{"a" message:"seen"}').match("a")
        self.assertEqual((found["message"].text, found["message"].span), ("seen", (1, 1)))

    def test_equal_and_copied(self):
        first, second = self.pattern.match(LINE), self.pattern.match(LINE)
        self.assertEqual(first, second)
        self.assertEqual(hash(first), hash(second))
        self.assertNotEqual(first, self.pattern.match("2024-04 INFO"))
        self.assertEqual(pickle.loads(pickle.dumps(first)), first)
        self.assertEqual(copy.copy(first)["day"].text, "2024-03")

    def test_bytes(self):
        self.assertEqual(self.pattern.match(LINE.encode()).text, "2024-03 INFO")

    def test_deep_tree(self):
        pattern = rosie.Pattern("p", rpl='grammar p = {"(" p? ")"} end')
        found = pattern.match("(" * 1800 + ")" * 1800)
        self.assertEqual(len(list(found.walk())), 1800)
        self.assertEqual(len(found.pretty().split("\n")), 1800)


class Trees(unittest.TestCase):
    """The readers of trees agree with that of the standard library."""

    def test_readers_agree(self):
        with open(os.path.join(EXAMPLES, "fixtures", "nginx_access.log"), "rb") as file:
            printed = command("match", "--libpath", EXAMPLES, "nginx.access_line", text=file.read()).stdout.splitlines()
        printed.append(b'{"type":"*","s":1,"e":9,"data":"a\\"\\\\]}",'
                       b'"subs":[{"type":"x.y","s":1,"e":2,"data":"\\u0001"}]}')
        self.assertGreater(len(printed), 20)
        for text in printed:
            wanted = json.loads(text)
            self.assertEqual(read_tree(text), wanted)
            self.assertEqual(read_deep_tree(text), wanted)
            self.assertEqual(json.loads(write_tree(wanted)), wanted)
            self.assertEqual(list(record_of(text).items()), list(self.leaves(wanted).items()))

    def leaves(self, root):
        """The record, told from the tree."""
        made = {}

        def visit(node):
            for part in node["subs"]:
                if "subs" in part:
                    visit(part)
                else:
                    made.setdefault(part["type"].split(".")[-1], []).append(part["data"])
        visit(root)
        return {name: texts[0] if len(texts) == 1 else texts for name, texts in made.items()}


class Searches(unittest.TestCase):
    """Matches anywhere in a text."""

    def test_search(self):
        pattern = rosie.Pattern("level", rpl="level = [:upper:]+")
        found = pattern.search("é INFO ok WARN")
        self.assertEqual((found.type, found.text), ("level", "INFO"))
        self.assertEqual((found.span, found.byte_span), ((2, 6), (3, 7)))
        self.assertIsNone(pattern.search("none"))

    def test_findall(self):
        pattern = rosie.Pattern("level", rpl="level = [:upper:]+")
        hits = pattern.findall("INFO ok WARN")
        self.assertEqual([(hit.type, hit.text) for hit in hits], [("level", "INFO"), ("level", "WARN")])
        self.assertEqual(pattern.findall("none"), [])

    def test_of_no_name(self):
        pattern = rosie.Pattern('{"=" n}', rpl="n = [0-9]+")
        hits = pattern.findall("a=1 b=22")
        found = [(hit.type, hit.text, hit["n"].text) for hit in hits]
        self.assertEqual(found, [("*", "=1", "1"), ("*", "=22", "22")])

    def test_of_an_alias(self):
        pattern = rosie.Pattern("a", rpl="n = [0-9] alias a = n")
        self.assertEqual([(hit.type, hit.parts[0].type) for hit in pattern.findall("x1")], [("*", "n")])

    def test_fixed(self):
        self.assertEqual(rosie.Pattern("a+b", fixed=True).search("1 a+b").span, (2, 5))

    def test_whole_text(self):
        self.assertEqual([hit.span for hit in rosie.Pattern('"a"').findall("a\n\na")], [(0, 1), (3, 4)])


class Refused(unittest.TestCase):
    """What the command refuses, as exceptions."""

    def refused(self, *words, **options):
        with self.assertRaises(rosie.PatternError) as caught:
            rosie.Pattern(*words, **options)
        return caught.exception

    def test_pattern(self):
        error = self.refused('"é" [a-zA-Z]+')
        self.assertEqual((error.file, error.offset, error.message), ("(pattern)", 7, "bad range"))
        self.assertEqual((error.line, error.column), (1, 7))
        self.assertEqual(str(error).split("\n")[:3], ["(pattern):1:7: bad range", '  "é" [a-zA-Z]+', "        ^"])

    def test_text_of_rules(self):
        error = self.refused("x", rpl=['y = "a"', 'x = "a"\n\tz = "b'])
        self.assertEqual((error.file, error.line, error.column, error.message), ("(rpl 2)", 2, 6, "text without end"))

    def test_file(self):
        with tempfile.TemporaryDirectory() as folder:
            path = os.path.join(folder, "a:1: syntax.rpl")
            with open(path, "w", encoding="utf-8") as file:
                file.write('a = "x"\nb = c\n')
            error = self.refused("a", files=[path])
        self.assertEqual((error.file, error.message), (path, "unknown name: c"))
        self.assertEqual((error.line, error.column), (2, 5))

    def test_files_of_rules(self):
        with tempfile.TemporaryDirectory() as folder:
            for name in ("one.rpl", "two.rpl"):
                with open(os.path.join(folder, name), "w", encoding="utf-8") as file:
                    file.write(f'{name[:3]} = "{name[0]}"\n')
            files = [os.path.join(folder, name) for name in ("one.rpl", "two.rpl")]
            found = rosie.Pattern("{one two}", files=files).match("ot")
        self.assertEqual([part.type for part in found.parts], ["one", "two"])

    def test_import(self):
        with tempfile.TemporaryDirectory() as folder:
            with open(os.path.join(folder, "p.rpl"), "w", encoding="utf-8") as file:
                file.write("package p\nx = {")
            error = self.refused("p.x", libpath=[folder])
            self.assertEqual((error.file, error.line, error.message), (os.path.join(folder, "p.rpl"), 2, "syntax"))
        self.assertEqual(self.refused("p.x", libpath=[folder]).message, "import not found: p")

    def test_missing_file(self):
        error = self.refused("a", files=["none.rpl"])
        self.assertEqual((error.file, error.line, error.message), ("none.rpl", None, "no such file"))
        self.assertEqual(str(error).split("\n")[0], "none.rpl: no such file")

    def test_what_no_command_line_holds(self):
        for pattern in ('"\0"', '"' + "a" * 131072 + '"', '"\ud800"'):
            with self.assertRaises(rosie.RosieError):
                rosie.Pattern(pattern)

    def test_pickled(self):
        error = self.refused("abc")
        self.assertEqual(str(pickle.loads(pickle.dumps(error))), str(error))

    def test_no_command(self):
        with self.assertRaises(rosie.CommandMissing):
            rosie.Pattern('"a"', command="/none/rosie")

    def test_library_path(self):
        for libpath in ("a:", ["a:b"], [""]):
            with self.assertRaises(ValueError):
                rosie.Pattern('"a"', libpath=libpath)


class Lines(unittest.TestCase):
    """One answer for each line, in order."""

    def test_order(self):
        pattern = rosie.Pattern('{"a" b}', rpl='b = "b"+')
        lines = ["ab", "x", "", "ab\r", b"\xffab", "abb\n", "\n", '{"type":"*","s":1,"e":1,"data":""}', "steps 2",
                 "rosie: -:1: not UTF-8", "ab"]
        answers = list(pattern.over(lines))
        self.assertEqual([answer and getattr(answer, "text", "fault") for answer in answers],
                         ["ab", None, None, "ab", "fault", "abb", None, None, None, None, "ab"])
        self.assertEqual(answers[4], rosie.LineFault(5, "not UTF-8", b"\xffab"))
        self.assertEqual(str(answers[4]), "line 5: not UTF-8")

    def test_lines_that_look_like_answers_match(self):
        lines = ['{"type":"*","s":1,"e":2,"data":"{"}', "steps 4", "rosie: -:3: budget spent"]
        self.assertEqual([answer.text for answer in rosie.Pattern(".*").over(lines)], lines)

    def test_whole_texts_keep_their_place(self):
        pattern = rosie.Pattern('{"a" [\\n]? "b" $}')
        answers = list(pattern.over(["ab", "a\nb", "ab\n", "x\ny", b"\xff\n\xff", "ab"]))
        self.assertEqual([answer and getattr(answer, "text", str(answer)) for answer in answers],
                         ["ab", "a\nb", "ab", None, "line 5: not UTF-8", "ab"])

    def test_files(self):
        text = "ab\n\nx\r\nabab\nab"
        wanted = [line and line[:2] == "ab" for line in text.split("\n")]
        pattern = rosie.Pattern('"ab"')
        with tempfile.TemporaryDirectory() as folder:
            path = os.path.join(folder, "lines")
            with open(path, "w", encoding="utf-8", newline="") as file:
                file.write(text)
            with open(path, "rb") as file, open(path, encoding="utf-8") as other, open(path, "rb", buffering=0) as raw:
                for source in (file, other, raw, io.BytesIO(text.encode()), io.StringIO(text)):
                    self.assertEqual([bool(answer) for answer in pattern.over(source)], [bool(each) for each in wanted])

    def test_nothing(self):
        self.assertEqual(list(rosie.Pattern('"a"').over([])), [])
        self.assertEqual(list(rosie.Pattern('"a"').over(io.BytesIO(b""))), [])
        answers = rosie.Pattern('""').over(io.BytesIO(b"\n"))
        self.assertEqual(trees(answers), [{"type": "*", "s": 1, "e": 1, "data": ""}])

    def test_long_lines(self):
        pattern = rosie.Pattern(".*")
        long = "é" * 524288
        answers = pattern.over([long, "a", long + "\n", "b"])
        self.assertEqual([len(answer.text) for answer in answers], [524288, 1, 524288, 1])
        self.assertEqual(len(pattern.match(long).text), 524288)
        self.assertEqual(pattern.match("c").text, "c")

    def test_too_long_lines(self):
        pattern = rosie.Pattern('"a"')
        lines = [b"a" * (LONGEST_LINE + 1), b"a", b"a" * LONGEST_LINE, b"b\n" + b"a" * LONGEST_LINE]
        answers = list(pattern.over(lines))
        self.assertEqual([getattr(answer, "cause", "match") for answer in answers],
                         ["line too long", "match", "match", "line too long"])
        self.assertEqual(answers[2].text, "a")

    def test_too_long_answers(self):
        pattern = rosie.Pattern(".*")
        with self.assertRaises(rosie.LineFault) as caught:
            pattern.match(b"\x01" * LONGEST_LINE)
        self.assertEqual(caught.exception.cause, "answer too long")
        self.assertEqual(pattern.match("a").text, "a")

    def test_budget(self):
        pattern = rosie.Pattern('{"a"* "b"}', budget=20)
        answers = pattern.over(["x", "a" * 100, "x"])
        self.assertEqual(trees(answers), [None, "budget spent", None])
        with self.assertRaises(rosie.LineFault) as caught:
            pattern.match("a" * 100)
        self.assertEqual(caught.exception.cause, "budget spent")

    def test_what_is_no_utf8(self):
        pattern = rosie.Pattern(".")
        for text in ("\udcff", "\ud800", b"\xc3", b"\xed\xa0\x80"):
            with self.assertRaises(rosie.LineFault):
                pattern.match(text)
        self.assertEqual(pattern.match("\udcc3\udca9").text, "é")

    def test_nul(self):
        self.assertEqual([answer.text for answer in rosie.Pattern(".*").over(["a\0b", "\0"])], ["a\0b", "\0"])

    def test_records(self):
        pattern = rosie.Pattern("entry", rpl=RULES)
        lines = [LINE, "x", b"\xff", "2025-01 WARN"]
        faults = []
        self.assertEqual(list(pattern.records(lines, faults.append)),
                         [{"day": "2024-03", "level": "INFO"}, {"day": "2025-01", "level": "WARN"}])
        self.assertEqual([(fault.number, fault.cause) for fault in faults], [(3, "not UTF-8")])
        with self.assertRaises(rosie.LineFault):
            list(pattern.records(lines))

    def test_records_are_those_of_rosie_columns(self):
        if not os.access(COLUMNS, os.X_OK):
            self.skipTest("rosie-columns isn't built")
        with open(os.path.join(EXAMPLES, "fixtures", "nginx_access.log"), "rb") as file:
            text = file.read() + b"no line of nginx\n" + '203.0.113.9 - "é\\x22" '.encode()
        for pattern in ("nginx.access_line", "nginx.access_lean", "{word.any}", "num.int"):
            printed = command("match", "--libpath", EXAMPLES, pattern, text=text).stdout
            done = subprocess.run([COLUMNS, "-o", "json"], input=printed, capture_output=True, check=True)
            wanted = [json.loads(line) for line in done.stdout.splitlines()]
            made = list(rosie.Pattern(pattern, libpath=[EXAMPLES]).records(io.BytesIO(text)))
            self.assertEqual([list(record.items()) for record in made], [list(record.items()) for record in wanted])
            self.assertGreater(len(made), 2)

    def test_code_that_the_command_refuses(self):
        pattern = rosie.Pattern('"a"')
        pattern._code = b"no code"
        for ask in (pattern.match, lambda text: list(pattern.over([text] * 3))):
            with self.assertRaisesRegex(rosie.CommandEnded, "status 2: .*not a code file"):
                ask("a")


class Streams(unittest.TestCase):
    """Back pressure, live sources, and the end of processes."""

    def setUp(self):
        self.pattern = rosie.Pattern('{"a" b}', rpl='b = "b"+')
        self.addCleanup(self.pattern.close)

    def test_live_file(self):
        read, write = os.pipe()
        with os.fdopen(read, "rb") as source, self.pattern.over(source) as answers:
            for line in (b"ab\n", b"x\n", b"abb\n"):
                os.write(write, line)
                answer = next(answers)
                self.assertEqual(answer and answer.text.encode() + b"\n", None if line == b"x\n" else line)
            os.write(write, b"ab")
            os.close(write)
            self.assertEqual([answer.text for answer in answers], ["ab"])

    def test_source_runs_in_the_thread_of_the_reader(self):
        seen = set()

        def source():
            for _ in range(5000):
                seen.add(threading.get_ident())
                yield "ab"
        self.assertEqual(len(list(self.pattern.over(source()))), 5000)
        self.assertEqual(seen, {threading.get_ident()})

    def test_a_gigabyte_and_a_slow_reader(self):
        line = b"a" + b"b" * 65534
        given = 0

        def source():
            nonlocal given
            for _ in range(1 << 14):
                given += 1
                yield line
        before = resource.getrusage(resource.RUSAGE_SELF).ru_maxrss
        most = count = 0
        with self.pattern.over(source()) as answers:
            for answer in answers:
                count += 1
                most = max(most, given - count)
                if count % 2048 == 0:
                    time.sleep(0.2)
                    self.assertEqual(answer["b"].byte_span, (1, 65535))
        self.assertEqual((given, count), (1 << 14, 1 << 14))
        self.assertLess(most, 64)
        self.assertLess(resource.getrusage(resource.RUSAGE_SELF).ru_maxrss - before, 100000)

    def test_many_short_lines(self):
        lines = [b"ab\n", b"x\n", b"\xff\n"] * 30000
        answers = self.pattern.over(io.BytesIO(b"".join(lines)))
        kinds = [type(answer) for answer in answers]
        self.assertEqual(kinds, [rosie.Match, type(None), rosie.LineFault] * 30000)

    def endless(self):
        while True:
            yield "ab"

    def test_close(self):
        before = children()
        answers = self.pattern.over(self.endless())
        next(answers)
        self.assertNotEqual(children(), before)
        answers.close()
        self.assertEqual(children(), before)
        self.assertEqual(list(answers), [])

    def test_with(self):
        before = children()
        with self.assertRaises(ZeroDivisionError), self.pattern.over(self.endless()) as answers:
            next(answers)
            1 / 0
        self.assertEqual(children(), before)

    def test_left_alone(self):
        before = children()
        for answer in self.pattern.over(self.endless()):
            self.assertEqual(answer.text, "ab")
            break
        self.assertEqual(children(), before)

    def test_exception_of_the_source(self):
        def source():
            yield "ab"
            raise ValueError("the source")
        before = children()
        with self.assertRaisesRegex(ValueError, "the source"):
            list(self.pattern.over(source()))
        self.assertEqual(children(), before)

    def test_pattern_that_is_let_go(self):
        before = children()
        pattern = rosie.Pattern('"a"')
        pattern.match("a")
        self.assertEqual(len(children()), len(before) + 1)
        del pattern
        self.assertEqual(children(), before)

    def test_interrupt(self):
        program = ("import itertools, os, rosie\n"
                   "p = rosie.Pattern('\"a\"')\n"
                   "for n, m in enumerate(p.over(itertools.repeat('a'))):\n"
                   "    if n == 9: print(open(f'/proc/self/task/{os.getpid()}/children').read(), flush=True)\n")
        process = subprocess.Popen([sys.executable, "-c", program], stdout=subprocess.PIPE, stderr=subprocess.PIPE,
                                   env=dict(os.environ, PYTHONPATH=PYTHON))
        child = int(process.stdout.readline().split()[0])
        self.assertTrue(alive(child))
        process.send_signal(signal.SIGINT)
        _, err = process.communicate(timeout=60)
        self.assertIn(b"KeyboardInterrupt", err)
        self.assertFalse(alive(child))


PATTERN = None


def take_pattern(pattern):
    """Keeps the pattern that a process of a pool was given."""
    global PATTERN
    PATTERN = pattern


def level_of(line):
    """The level of a line, by the pattern of this process."""
    return PATTERN.match(line)["level"].text


class Together(unittest.TestCase):
    """Threads and processes."""

    def setUp(self):
        self.pattern = rosie.Pattern("entry", rpl=RULES)
        self.addCleanup(self.pattern.close)
        self.lines = [f"2024-{n % 100:02} {'ABCDEFGH'[n % 8] * (n % 5 + 1)}" for n in range(400)]
        self.wanted = [line.split()[1] for line in self.lines]

    def test_threads(self):
        found = {}

        def work(name):
            found[name] = [self.pattern.match(line)["level"].text for line in self.lines]
        threads = [threading.Thread(target=work, args=(name,)) for name in range(8)]
        for thread in threads:
            thread.start()
        for thread in threads:
            thread.join()
        self.assertEqual(list(found.values()), [self.wanted] * 8)
        self.assertLessEqual(len(self.pattern._idle["match"]), 8)

    def test_over_and_match_at_once(self):
        answers = self.pattern.over(self.lines)
        found = []
        for answer, line in zip(answers, self.lines):
            found.append((answer["level"].text, self.pattern.match(line)["level"].text))
        self.assertEqual(found, [(word, word) for word in self.wanted])

    def pools(self, method):
        self.assertEqual(self.pattern.match(self.lines[0])["level"].text, self.wanted[0])
        context = multiprocessing.get_context(method)
        with context.Pool(3, take_pattern, (self.pattern,)) as pool:
            self.assertEqual(pool.map(level_of, self.lines), self.wanted)
        self.assertEqual(self.pattern.match(self.lines[1])["level"].text, self.wanted[1])

    def test_forked_processes(self):
        self.pools("fork")

    def test_spawned_processes(self):
        self.pools("spawn")

    def test_a_stream_beside_a_forked_process(self):
        # The forked process holds the pipes too; the stream mustn't wait for it to let them go.
        answers = self.pattern.over(self.lines)
        first = next(answers)
        process = multiprocessing.get_context("fork").Process(target=time.sleep, args=(30,))
        process.start()
        begun = time.monotonic()
        self.assertEqual([first["level"].text] + [answer["level"].text for answer in answers], self.wanted)
        self.assertLess(time.monotonic() - begun, 20)
        process.kill()
        process.join()


class Costs(unittest.TestCase):
    """What matching takes of a processor, the package and the command together."""

    def setUp(self):
        self.pattern = rosie.Pattern("entry", rpl=RULES)
        self.addCleanup(self.pattern.close)

    def least(self, work):
        """The fewest seconds of a processor that the work takes in three runs, with the processes that it ends."""
        seconds = []
        for _ in range(3):
            before = [resource.getrusage(who) for who in (resource.RUSAGE_SELF, resource.RUSAGE_CHILDREN)]
            work()
            after = [resource.getrusage(who) for who in (resource.RUSAGE_SELF, resource.RUSAGE_CHILDREN)]
            seconds.append(sum(b.ru_utime + b.ru_stime - a.ru_utime - a.ru_stime for a, b in zip(before, after)))
        return min(seconds)

    def test_60000_records_in_a_second(self):
        text = (LINE + "\n").encode() * 60000

        def work():
            self.assertEqual(sum(1 for _ in self.pattern.records(io.BytesIO(text))), 60000)
        self.assertLess(self.least(work), 1.0)

    def test_a_match_in_200_microseconds(self):
        def work():
            for _ in range(2000):
                self.pattern.match(LINE)
            # The process that answered counts when it has ended.
            self.pattern.close()
        self.assertLess(self.least(work) / 2000, 0.0002)


if __name__ == "__main__":
    unittest.main()
