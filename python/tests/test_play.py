"""The playground's server: its answers, and who it answers."""
import http.client
import json
import os
import resource
import socket
import stat
import struct
import subprocess
import sys
import tempfile
import threading
import time
import unittest

from helper import EXAMPLES, PROGRAM, PYTHON, command

from rosie.play.server import Server
from rosie.play.work import BadRequest, Work

RULES = 'day = {[0-9]{4} "-" [0-9]{2}} level = [:upper:]+\n'


def processor_seconds():
    """The seconds of a processor that this process and its ended children have taken."""
    own, others = resource.getrusage(resource.RUSAGE_SELF), resource.getrusage(resource.RUSAGE_CHILDREN)
    return own.ru_utime + own.ru_stime + others.ru_utime + others.ru_stime


class Answers(unittest.TestCase):
    """What the calls of the page answer."""

    def setUp(self):
        self.work = Work([EXAMPLES])

    def call(self, name, **asked):
        return self.work.call(name, asked)

    def test_answers(self):
        made = self.call("answers", pattern='{day " " level}', rules=RULES,
                         lines="2024-03 INFO é\nx\n\udcff")["answers"]
        self.assertEqual([answer["kind"] for answer in made], ["match", "none", "fault"])
        self.assertEqual(made[0]["tree"], {"t": "*", "s": 0, "e": 12, "p": [
            {"t": "day", "s": 0, "e": 7}, {"t": "level", "s": 8, "e": 12}]})
        self.assertEqual(made[0]["record"], {"day": "2024-03", "level": "INFO"})
        self.assertEqual(made[2]["cause"], "not UTF-8")

    def test_places_are_those_of_javascript(self):
        tree = self.call("answers", pattern='{"é😀" word}', rules="word = [a-z]+", lines="é😀ab")["answers"][0]["tree"]
        self.assertEqual((tree["e"], tree["p"][0]["s"], tree["p"][0]["e"]), (5, 3, 5))

    def test_search(self):
        made = self.call("answers", pattern="level", rules=RULES, lines="a INFO b WARN\nnone", search=True)["answers"]
        self.assertEqual([(hit["s"], hit["e"]) for hit in made[0]["tree"]["p"]], [(2, 6), (9, 13)])
        self.assertEqual(made[1]["kind"], "none")

    def test_faults(self):
        for pattern, rules, where, line, column in (("[a-zA-Z]", "", "pattern", 1, 3),
                                                    ("x", 'x = "a"\ny = "b', "rules", 2, 5),
                                                    ("none.x", "", "pattern", 1, 1)):
            fault = self.call("answers", pattern=pattern, rules=rules)["fault"]
            self.assertEqual((fault["where"], fault["line"], fault["column"]), (where, line, column))
        self.assertIn("NUL", self.call("answers", pattern="\0")["fault"]["message"])
        self.assertIn("surrogate", self.call("answers", pattern='"\ud800"')["fault"]["message"])
        for rules in ("\0", 'x = "\ud800"', " " * 131072):
            self.assertEqual(self.call("answers", pattern="x", rules=rules)["fault"]["where"], "rules")
        self.assertIn("empty loop", self.call("answers", pattern='"a"?', search=True)["fault"]["message"])

    def test_why(self):
        found = self.call("why", pattern='{"ab" [0-9]}', lines="ab1\nabx\né\nab", failed=[1, 2, 3])["reasons"]
        self.assertEqual({number: reason["at"] for number, reason in found.items()}, {1: 2, 2: 0, 3: 2})
        self.assertIn("a digit", " ".join(found[1]["told"]))

    def test_why_anywhere(self):
        found = self.call("why", pattern='{"ab" [0-9]}', lines="é ab\nxabx\né", failed=[0, 1, 2],
                          search=True)["reasons"]
        self.assertEqual({number: reason["at"] for number, reason in found.items()}, {0: 4, 1: 3, 2: None})
        self.assertIn("from byte 2 on", " ".join(found[1]["told"]))
        self.assertIn('each character, in the pattern, where "a" was wanted', " ".join(found[2]["told"]))

    def test_tests(self):
        rules = RULES + '-- test day accepts "2024-03", "x"\n-- test level rejects "a"\n'
        self.assertEqual(self.call("test", rules=rules),
                         {"count": 3, "failed": [{"line": 2, "text": 'day accepts "x"'}]})
        self.assertIn("definitions:2: bad test", self.call("test", rules=RULES + "-- test day\n")["told"])

    def test_a_test_of_a_line(self):
        asked = {"pattern": '{day " " level}', "rules": RULES}
        for line, test in (('2024-03 INFO', 'accepts "2024-03 INFO"'), ('2024-03 WARN"', 'accepts "2024-03 WARN"'),
                           ('"\t', 'rejects "\\"\\t"'),
                           ("\\", 'rejects "\\\\"')):
            asked = self.work.call("add_test", {**asked, "line": line})
            self.assertIn(f"-- test entry {test}\n", asked["rules"])
        self.assertEqual(asked["pattern"], "entry")
        self.assertEqual(asked["rules"].count("entry = "), 1)
        self.assertEqual(self.call("test", rules=asked["rules"]), {"count": 4, "failed": []})

    def test_a_test_of_a_search(self):
        asked = {"pattern": "level", "rules": RULES, "search": True}
        for line, test in (("a INFO", 'accepts "INFO"'), ("a b", 'rejects "a b"')):
            self.assertIn(f"-- test level {test}\n", self.work.call("add_test", {**asked, "line": line})["rules"])

    def test_a_rule_of_packages(self):
        asked = self.call("as_rule", pattern="{net.ip \" \" date.plain}", rules='package p\nimport net\nentry = "x"\n')
        self.assertEqual(asked["pattern"], "p.entry_2")
        self.assertIn("package p\nimport net\nimport date\n", asked["rules"])
        self.assertEqual(self.call("as_rule", **asked), asked)
        made = self.call("answers", pattern="p.entry_2", rules=asked["rules"], lines="10.0.0.1 2024-03-11 12:00:00")
        self.assertEqual(made["answers"][0]["tree"]["t"], "p.entry_2")

    def test_export(self):
        made = self.call("export", pattern='{day " " level}', rules=RULES, lines="")
        with tempfile.TemporaryDirectory() as folder:
            with open(os.path.join(folder, made["file"]), "w", encoding="utf-8") as file:
                file.write(made["rules"])
            with open(os.path.join(folder, "FILE"), "w", encoding="utf-8") as file:
                file.write("2024-03 INFO x\n")
            os.symlink(PROGRAM, os.path.join(folder, "rosie"))
            printed = []
            for line in made["commands"]:
                done = subprocess.run(["sh", "-c", "PATH=.:$PATH; " + line], cwd=folder, capture_output=True,
                                      text=True, check=True)
                printed.append(done.stdout)
        self.assertIn('"type":"entry"', printed[0])
        self.assertIn("0 tests, 0 failed", printed[1])
        self.assertIn('"type":"*"', printed[2])

    def test_diagram(self):
        svg = self.call("diagram", rules=RULES, at=RULES.index("level"))["svg"]
        self.assertIn(">level</text>", svg)
        self.assertIn("[:upper:]", svg)
        self.assertIn("&lt;", self.call("diagram", pattern='"<"')["svg"])
        self.assertEqual(self.call("diagram", rules="", at=0)["svg"], "")

    def test_expand(self):
        wanted = command("expand", "--rpl", RULES, "--libpath", EXAMPLES, "level").stdout.decode()
        self.assertEqual(self.call("expand", pattern="level", rules=RULES)["text"], wanted)

    def test_names(self):
        names = {each["name"]: each for each in self.call("names")["names"]}
        wanted = command("list", "--libpath", EXAMPLES, "-f", os.path.join(EXAMPLES, "net.rpl")).stdout.decode()
        self.assertEqual(sorted(name for name in names if name.startswith("net.")), sorted(re_names(wanted)))
        self.assertEqual(names["net.ipv4"]["example"], '"127.0.0.1"')

    def test_wild_patterns(self):
        made = self.call("answers", pattern='{"a"* "b"}', lines="a" * 100000, search=True)["answers"]
        self.assertEqual(made[0]["cause"], "budget spent")
        self.assertIn("too large", self.call("answers", pattern='{{{"ab"}{200}}{200}}{200}')["fault"]["message"])
        deep = "(" * 5000
        made = self.call("answers", pattern="p", rules='grammar p = {"(" p?} end', lines=deep)["answers"]
        self.assertEqual(made[0]["kind"], "match")

    def test_a_command_that_never_ends(self):
        with tempfile.TemporaryDirectory() as folder:
            path = os.path.join(folder, "rosie")
            with open(path, "w", encoding="ascii") as file:
                file.write("#!/bin/sh\nwhile :; do :; done\n")
            os.chmod(path, stat.S_IRWXU)
            self.work.command.path = path
            self.work.command.limit(1, 1000)
            self.work.command.timeout = 100
            self.assertIn("ended with status -", self.call("answers", pattern='"a"')["fault"]["message"])

    def test_bad_requests(self):
        for name, asked in (("answers", {"pattern": 1}), ("none", {}), ("__init__", {}), ("answers", []),
                            ("answers", {"lines": "a" * 1000000})):
            with self.assertRaises(BadRequest):
                self.work.call(name, asked)

    def test_at_most_four_calls_at_a_time(self):
        running, most, lock = 0, 0, threading.Lock()

        def slow(_):
            nonlocal running, most
            with lock:
                running += 1
                most = max(most, running)
            time.sleep(0.05)
            with lock:
                running -= 1
            return {}
        self.work.calls["names"] = slow
        threads = [threading.Thread(target=self.call, args=("names",)) for _ in range(12)]
        for thread in threads:
            thread.start()
        for thread in threads:
            thread.join()
        self.assertEqual((running, most), (0, 4))

    def test_200_lines_take_a_tenth_of_a_second(self):
        with open(os.path.join(EXAMPLES, "fixtures", "nginx_access.log"), encoding="utf-8") as file:
            lines = "".join((file.read().splitlines(keepends=True) * 200)[:200])
        least = 1.0
        for _ in range(5):
            before = processor_seconds()
            made = self.call("answers", pattern="nginx.access_lean", lines=lines.rstrip("\n"))
            least = min(least, processor_seconds() - before)
            self.assertEqual(len(made["answers"]), 200)
        self.assertLess(least, 0.1)


def re_names(listed):
    """The names in what `rosie list` printed."""
    return [line.split()[0] for line in listed.splitlines()]


class Security(unittest.TestCase):
    """Who is answered, and with what headers."""

    @classmethod
    def setUpClass(cls):
        cls.server = Server(Work([EXAMPLES]))
        threading.Thread(target=cls.server.serve_forever, daemon=True).start()

    @classmethod
    def tearDownClass(cls):
        cls.server.shutdown()
        cls.server.server_close()

    def ask(self, method, path, text=None, **headers):
        made = {"Host": f"127.0.0.1:{self.server.server_port}", "Content-Type": "application/json"}
        if method == "POST":
            made["Origin"] = self.server.origin
        made.update({name.replace("_", "-"): value for name, value in headers.items()})
        connection = http.client.HTTPConnection("127.0.0.1", self.server.server_port, timeout=120)
        try:
            connection.putrequest(method, path, skip_host=True, skip_accept_encoding=True)
            for name, value in made.items():
                if value is not None:
                    connection.putheader(name, value)
            if text is not None:
                connection.putheader("Content-Length", str(len(text)))
            connection.endheaders(text)
            reply = connection.getresponse()
            return reply.status, reply.read(), reply
        finally:
            connection.close()

    def post(self, name="answers", asked=None, **headers):
        text = json.dumps(asked or {"pattern": '"a"', "lines": "a"}).encode()
        return self.ask("POST", f"/{self.server.token}/{name}", text, **headers)[0]

    def test_page(self):
        status, page, reply = self.ask("GET", f"/{self.server.token}/")
        self.assertEqual(status, 200)
        policy = reply.getheader("Content-Security-Policy")
        self.assertIn("default-src 'none'", policy)
        self.assertNotIn("unsafe", policy)
        # One file, without another source, and without a style or a handler in an element.
        self.assertNotRegex(page.decode(),
                            r"(?i)\b(?:src|href)=\"(?!data:,)|\bstyle=|\bon[a-z]+=\"|https?://(?!example\.com/)")

    def test_token(self):
        self.assertGreater(len(self.server.token), 30)
        for path in ("/", "//", "/x/", f"/{self.server.token[:-1]}/", f"/{self.server.token}x/",
                     f"/{self.server.token}",
                     f"/{self.server.token}/../", "/%C3%A9/"):
            self.assertEqual(self.ask("GET", path)[0], 404)
        self.assertEqual(self.ask("POST", "/x/answers", b"{}")[0], 404)

    def test_host(self):
        port = self.server.server_port
        for host in ("example.com", f"example.com:{port}", f"localhost:{port}", "127.0.0.1", f"127.0.0.1:{port + 1}",
                     None):
            self.assertEqual(self.ask("GET", f"/{self.server.token}/", Host=host)[0], 403)

    def test_origin(self):
        self.assertEqual(self.post(), 200)
        for origin in ("http://example.com", "null", f"http://localhost:{self.server.server_port}", "http://127.0.0.1",
                       None):
            self.assertEqual(self.post(Origin=origin), 403)
        self.assertEqual(self.ask("GET", f"/{self.server.token}/", Origin="http://example.com")[0], 403)

    def test_kinds(self):
        self.assertEqual(self.post(Content_Type="text/plain"), 415)
        self.assertEqual(self.post(name="../answers"), 400)
        self.assertEqual(self.ask("PUT", f"/{self.server.token}/", b"{}")[0], 501)
        self.assertEqual(self.ask("POST", f"/{self.server.token}/answers", b"{")[0], 400)
        self.assertEqual(self.ask("POST", f"/{self.server.token}/answers", b"[" * 100000)[0], 400)
        self.assertEqual(self.ask("POST", f"/{self.server.token}/answers", None, Content_Length="99999999")[0], 413)

    def test_no_path_outside_the_library_path(self):
        for pattern in ("../x.y", "/etc/passwd", "etc.passwd"):
            self.assertEqual(self.post(asked={"pattern": pattern}), 200)
            self.assertIn("fault", self.server.work.call("answers", {"pattern": pattern}))
        for rules in ("import ../x", "import /etc/passwd", 'import "x"'):
            self.assertIn("fault", self.server.work.call("answers", {"pattern": '"a"', "rules": rules}))
        self.assertIn("fault", self.server.work.call("answers", {"pattern": "-f/etc/passwd"}))

    def test_only_this_machine(self):
        self.assertEqual(self.server.socket.getsockname()[0], "127.0.0.1")
        with socket.socket() as other:
            other.settimeout(5)
            with self.assertRaises(OSError):
                other.connect(("127.0.0.2", self.server.server_port))


class Program(unittest.TestCase):
    """The program `rosie-play`."""

    def test_address_and_end(self):
        with tempfile.TemporaryDirectory() as folder:
            environment = {name: value for name, value in os.environ.items() if name not in ("DISPLAY", "BROWSER")}
            program = os.path.join(PYTHON, "bin", "rosie-play")
            process = subprocess.Popen([sys.executable, program, "--no-browser", "--libpath", EXAMPLES], cwd=folder,
                                       text=True,
                                       stdout=subprocess.PIPE, env=dict(environment, HOME=folder))
            self.addCleanup(process.wait)
            self.addCleanup(process.kill)
            address = process.stdout.readline().split()[-1]
            self.assertRegex(address, r"^http://127\.0\.0\.1:\d+/[\w-]{32}/$")
            port = int(address.split("/")[2].partition(":")[2])
            connection = http.client.HTTPConnection("127.0.0.1", port, timeout=120)
            for name in ("answers", "test", "why", "export", "names", "add_test"):
                asked = json.dumps({"pattern": '"a"', "lines": "b\na", "line": "a", "failed": [0]})
                connection.request("POST", address[address.index("/", 8):] + name, asked,
                                   {"Content-Type": "application/json", "Origin": f"http://127.0.0.1:{port}"})
                reply = connection.getresponse()
                self.assertEqual((reply.status, "fault" in json.loads(reply.read())), (200, False))
            connection.close()
            process.send_signal(2)
            process.communicate(timeout=30)
            self.assertEqual(process.returncode, 0)
            self.assertEqual(os.listdir(folder), [])

    def test_a_browser_that_goes_away(self):
        program = os.path.join(PYTHON, "bin", "rosie-play")
        process = subprocess.Popen([sys.executable, program, "--no-browser", "--libpath", EXAMPLES], text=True,
                                   stdout=subprocess.PIPE, stderr=subprocess.PIPE)
        self.addCleanup(process.wait)
        self.addCleanup(process.kill)
        address = process.stdout.readline().split()[-1]
        host, path = address.split("/")[2], address[address.index("/", 8):]
        heads = f"Host: {host}\r\nOrigin: http://{host}\r\nContent-Type: application/json\r\n"
        for length, text in ((1000, "{"), (30, '{"pattern":"net.any","lines":""}'[:30])):
            with socket.create_connection(("127.0.0.1", int(host.partition(":")[2]))) as one:
                one.sendall(f"POST {path}answers HTTP/1.1\r\n{heads}Content-Length: {length}\r\n\r\n{text}".encode())
                # It ends without a farewell, so that the answer cannot be written.
                one.setsockopt(socket.SOL_SOCKET, socket.SO_LINGER, struct.pack("ii", 1, 0))
        connection = http.client.HTTPConnection(host, timeout=120)
        connection.request("GET", path)
        self.assertEqual(connection.getresponse().status, 200)
        connection.close()
        time.sleep(1)
        process.terminate()
        self.assertEqual(process.communicate(timeout=120)[1], "")

    def test_faults(self):
        program = os.path.join(PYTHON, "bin", "rosie-play")
        for words in (["--libpath", "a::b"], ["--port", "99999"], ["--none"]):
            done = subprocess.run([sys.executable, program, "--no-browser", *words], capture_output=True, text=True,
                                  check=False)
            self.assertEqual(done.returncode, 2)
            self.assertIn("rosie-play: ", done.stderr)


if __name__ == "__main__":
    unittest.main()
