"""The package is installed by pip without a network, with nothing but what Python brings."""
import http.client
import json
import os
import shutil
import subprocess
import sys
import tempfile
import unittest
import urllib.parse
import zipfile

from helper import PROGRAM, PYTHON, TOP


class Install(unittest.TestCase):
    """A virtual environment of its own."""

    def setUp(self):
        self.folder = tempfile.mkdtemp()
        self.addCleanup(shutil.rmtree, self.folder)
        words = [sys.executable, "-m", "venv", os.path.join(self.folder, "venv")]
        made = subprocess.run(words, capture_output=True, text=True, check=False)
        if made.returncode:
            self.skipTest("this Python makes no virtual environments")
        # (a copy, so that nothing is left in the source)
        self.source = os.path.join(self.folder, "python")
        shutil.copytree(PYTHON, self.source, ignore=shutil.ignore_patterns("__pycache__", "tests"))

    def run_in(self, *words, **more):
        program = os.path.join(self.folder, "venv", "bin", words[0])
        return subprocess.run([program, *words[1:]], capture_output=True, text=True, cwd=self.folder, **more)

    def test_installed(self):
        done = self.run_in("pip", "install", "--no-index", "--disable-pip-version-check", self.source)
        self.assertEqual(done.returncode, 0, done.stderr)
        program = "import rosie; print(rosie.__file__, rosie.Pattern('\"a\"').match('ab').text)"
        environment = {name: value for name, value in os.environ.items() if name != "PYTHONPATH"}
        done = self.run_in("python", "-c", program, env=environment)
        self.assertEqual(done.returncode, 0, done.stderr)
        self.assertIn("site-packages", done.stdout)
        self.assertTrue(done.stdout.endswith(" a\n"))
        for name in ("rosie-play", "rosie-lsp"):
            self.assertEqual(self.run_in(name, "--help", env=environment).returncode, 0)
        self.assertEqual(self.run_in("pip", "uninstall", "-y", "rosie-pattern-language").returncode, 0)

    def test_make_install(self):
        folder = os.path.join(self.folder, "installed")
        words = ["make", "-o", "build", "install", f"PROGRAM={PROGRAM}", f"DESTDIR={folder}", "PREFIX=/usr"]
        subprocess.run(words, cwd=TOP, capture_output=True, check=True)
        environment = {name: value for name, value in os.environ.items() if name not in ("ROSIE", "PYTHONPATH")}
        process = subprocess.Popen([os.path.join(folder, "usr", "bin", "rosie-play"), "--no-browser"], cwd=self.folder,
                                   env=environment, stdout=subprocess.PIPE, text=True)
        self.addCleanup(process.stdout.close)
        self.addCleanup(process.wait)
        self.addCleanup(process.kill)
        address = urllib.parse.urlsplit(process.stdout.readline().split()[-1])
        connection = http.client.HTTPConnection(address.netloc, timeout=60)
        self.addCleanup(connection.close)
        asked = json.dumps({"pattern": "net.ip", "lines": "10.0.0.1 x"})
        connection.request("POST", address.path + "answers", asked,
                           {"Content-Type": "application/json", "Origin": f"http://{address.netloc}"})
        answer, = json.loads(connection.getresponse().read())["answers"]
        self.assertEqual((answer["kind"], answer["tree"]["e"]), ("match", 8))

    def test_archives(self):
        program = "import rosie_build as b; print(b.build_wheel('.'), b.build_sdist('.'))"
        words = [sys.executable, "-c", program]
        done = subprocess.run(words, cwd=self.source, capture_output=True, text=True, check=True)
        wheel, archive = done.stdout.split()
        with zipfile.ZipFile(os.path.join(self.source, wheel)) as file:
            self.assertIsNone(file.testzip())
            self.assertIn("rosie/py.typed", file.namelist())
        self.assertTrue(os.path.getsize(os.path.join(self.source, archive)) > 1000)


if __name__ == "__main__":
    unittest.main()
