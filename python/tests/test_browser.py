"""The playground in a browser: Chromium without a window, driven by selenium."""
import base64
import json
import os
import shutil
import struct
import subprocess
import tempfile
import threading
import time
import unittest

from helper import EXAMPLES, command

from rosie.play.server import Server
from rosie.play.work import Work

try:
    from selenium import webdriver
    from selenium.webdriver.chrome.options import Options
    from selenium.webdriver.chrome.service import Service
    from selenium.webdriver.common.by import By
    from selenium.webdriver.common.keys import Keys
except ImportError:
    webdriver = None
BROWSER = shutil.which("chromium") or shutil.which("google-chrome")
DRIVER = shutil.which("chromedriver")
# Where the picture for the documents is written, where this names a file.
PICTURE = os.environ.get("ROSIE_PICTURE")
LARGEST_PICTURE = 200000
# What a machine with much other work may need for something that comes at once on a quiet one.
SECONDS = int(os.environ.get("ROSIE_TEST_SECONDS", "120"))
LEAST_CONTRAST = 4.5
CONTRASTS = """
const colour = text => text.match(/[\\d.]+/g).map(Number);
const luminance = ([r, g, b]) => {
  const [x, y, z] = [r, g, b].map(v => v / 255).map(v => v <= 0.03928 ? v / 12.92 : Math.pow((v + 0.055) / 1.055, 2.4));
  return 0.2126 * x + 0.7152 * y + 0.0722 * z;
};
const back = element => {
  for (let at = element; at; at = at.parentElement) {
    const made = colour(getComputedStyle(at).backgroundColor);
    if (made.length < 4 || made[3] === 1) return made;
  }
  return [255, 255, 255];
};
const found = [];
for (const element of document.querySelectorAll('body *')) {
  const style = getComputedStyle(element);
  const own = [...element.childNodes].some(node => node.nodeType === 3 && node.data.trim()) ||
  /TEXTAREA|INPUT|SELECT/.test(element.tagName); if (!own || /^(SCRIPT|STYLE|OPTION)$/.test(element.tagName) ||
  style.visibility === 'hidden' || !element.getClientRects().length || element.ownerSVGElement) continue; const [a, b]
  = [luminance(colour(style.color)), luminance(back(element))].sort((x, y) => y - x); found.push([(a + 0.05) / (b +
  0.05), element.tagName + '.' + element.className + ': ' + element.textContent.slice(0, 30)]);
}
return found;
"""
UNNAMED = """
return [...document.querySelectorAll('input, textarea, select, button, [role=tab], svg')].filter(element =>
  !(element.labels && element.labels.length) && !element.getAttribute('aria-label') &&
  !element.textContent.trim()).map(element => element.outerHTML);
"""


@unittest.skipUnless(webdriver, "there is no selenium for this Python")
@unittest.skipUnless(BROWSER and DRIVER, "there is no Chromium with its driver")
class Browser(unittest.TestCase):
    """What a user sees and does."""

    @classmethod
    def setUpClass(cls):
        cls.folder = tempfile.mkdtemp()
        cls.server = Server(Work([EXAMPLES]))
        threading.Thread(target=cls.server.serve_forever, daemon=True).start()
        options = Options()
        options.binary_location = BROWSER
        for word in ("--headless=new", "--no-sandbox", "--disable-gpu", "--disable-dev-shm-usage", "--hide-scrollbars",
                     "--window-size=1280,900", "--user-data-dir=" + os.path.join(cls.folder, "profile")):
            options.add_argument(word)
        options.set_capability("goog:loggingPrefs", {"browser": "ALL"})
        cls.driver = webdriver.Chrome(service=Service(DRIVER), options=options)
        cls.driver.set_script_timeout(SECONDS)
        cls.driver.execute_cdp_cmd("Browser.setDownloadBehavior", {"behavior": "allow", "downloadPath": cls.folder})

    @classmethod
    def tearDownClass(cls):
        cls.driver.quit()
        cls.server.shutdown()
        cls.server.server_close()
        shutil.rmtree(cls.folder, ignore_errors=True)

    def setUp(self):
        self.show(1280, 900, False)
        self.driver.get("about:blank")
        self.driver.get(self.server.address)
        self.settled()

    def tearDown(self):
        self.assertEqual([entry for entry in self.driver.get_log("browser") if entry["level"] == "SEVERE"], [])

    def show(self, width, height, dark):
        """The size of the page, and dark or light."""
        self.driver.execute_cdp_cmd("Emulation.setDeviceMetricsOverride",
                                    {"width": width, "height": height, "deviceScaleFactor": 1, "mobile": False})
        scheme = {"name": "prefers-color-scheme", "value": "dark" if dark else "light"}
        self.driver.execute_cdp_cmd("Emulation.setEmulatedMedia", {"features": [scheme]})

    def until(self, script, *words):
        """Waits for a script to give something true, and returns that."""
        end = time.monotonic() + SECONDS
        while time.monotonic() < end:
            found = self.driver.execute_script("return " + script, *words)
            if found:
                return found
            time.sleep(0.05)
        self.fail(f"it never came: {script}")

    def settled(self):
        """Waits for the answers to what was typed."""
        self.until("document.body.dataset.typed && document.body.dataset.done === document.body.dataset.typed")

    def find(self, selector):
        return self.driver.find_element(By.CSS_SELECTOR, selector)

    def texts(self, selector):
        return self.driver.execute_script(
            "return [...document.querySelectorAll(arguments[0])].map(e => e.textContent)", selector)

    def type(self, field, text):
        """Types a text in place of what is in a field."""
        self.find("#" + field).send_keys(Keys.CONTROL, "a")
        self.find("#" + field).send_keys(Keys.DELETE, text)
        self.settled()

    def open(self, tab):
        self.find("#tab-" + tab).click()
        self.until("document.getElementById('panel').dataset.shown === arguments[0]", tab)

    def put(self, **texts):
        """Puts texts into fields at once, as a paste does."""
        self.driver.execute_script("for (const [name, text] of Object.entries(JSON.parse(arguments[0]))) {"
                                   "const field = document.getElementById(name); field.value = text;"
                                   "field.dispatchEvent(new Event('input', {bubbles: true})); }", json.dumps(texts))

    def choose(self, number):
        """Chooses an example."""
        self.driver.execute_script("const e = document.getElementById('examples'); e.value = arguments[0];"
                                   "e.dispatchEvent(new Event('change'))", str(number))
        self.settled()

    def test_it_begins_with_a_match(self):
        self.assertEqual(self.texts(".match .root"), ["2024-03-11 12:30:05 INFO", "2024-03-11 12:31:17 ERROR"])
        self.assertEqual(self.find("#status").text, "2 of 4 lines match")

    def test_typing_a_pattern(self):
        self.type("lines", "ab 12\nx\n")
        self.type("rules", "word = [:alpha:]+ number = [0-9]+")
        self.type("pattern", '{word " " number}')
        self.assertEqual(self.texts("#line-0 .root"), ["ab 12"])
        self.assertEqual(self.texts("#line-0 .part"), ["ab", "12"])
        self.assertEqual(self.texts("#legend li"), ["word", "number"])
        left = self.driver.execute_script(
            "return ['.root', '#line-0 .part:last-child'].map("
            "s => document.querySelector(s).getBoundingClientRect().right)")
        self.assertAlmostEqual(*left, delta=0.5)
        self.assertIn('word "ab"', self.find("#panel").text)
        self.open("record")
        self.assertIn('{"word":"ab","number":"12"}', self.find("#panel pre").text)

    def test_a_fault_and_its_caret(self):
        self.type("pattern", '"ab" [a-zA-Z]')
        self.until("document.querySelector('#pattern-fault pre')")
        told = self.find("#pattern-fault pre").get_attribute("textContent").split("\n")
        self.assertEqual(told[0], "(pattern):1:8: bad range")
        self.assertEqual(told[1][told[2].index("^"):], "-zA-Z]")
        self.assertEqual(self.find("#pattern").get_attribute("aria-invalid"), "true")
        self.type("pattern", "level")
        self.assertEqual(self.texts("#pattern-fault pre"), [])
        self.type("rules", 'level = "a')
        self.assertIn("(rpl 1):1:9: text without end", self.find("#rules-fault").text)

    def test_a_line_that_fails(self):
        self.assertEqual(self.texts("#line-2 .place"), ["x"])
        self.assertIn("digit", self.find("#line-2 .reason").text)
        self.find("#line-2 .state").click()
        self.open("why")
        self.assertIn("digit", self.find("#panel").text)

    def test_searching(self):
        self.type("lines", "to 10.0.0.1 and 10.0.0.2\nnone\n")
        self.type("rules", "")
        self.find("#mode-search").click()
        self.type("pattern", "net.ipv4")
        self.assertEqual(self.texts(".root"), ["10.0.0.1", "10.0.0.2"])
        self.assertEqual(self.find("#status").text, "1 of 2 lines match")

    def test_tests_made_of_lines(self):
        self.find("#line-3 .add").click()
        self.until("document.getElementById('pattern').value === 'entry'")
        self.settled()
        self.find("#line-0 .add").click()
        self.until("document.getElementById('tab-tests').textContent === 'Tests (2)'")
        rules = self.find("#rules").get_attribute("value")
        self.assertIn('\nentry = {day " " time " " level}\n', rules)
        self.assertIn('-- test entry rejects "no date here"\n', rules)
        self.type("rules", rules + '-- test level accepts "a"')
        self.until("document.getElementById('tab-tests').textContent === 'Tests (1 failed)'")
        self.open("tests")
        self.assertIn('level accepts "a"', self.find("#panel").text)

    def test_export(self):
        self.find("#line-3 .add").click()
        self.until("document.getElementById('pattern').value === 'entry'")
        self.settled()
        self.open("export")
        self.find("#save").click()
        path = os.path.join(self.folder, "rules.rpl")
        end = time.monotonic() + SECONDS
        while not os.path.exists(path) and time.monotonic() < end:
            time.sleep(0.05)
        with open(path, encoding="utf-8") as file:
            self.assertEqual(file.read(), self.find("#exported").get_attribute("textContent"))
        self.assertIn(b"1 tests, 0 failed", command("test", path).stdout)
        line = self.texts(".command pre")[0].replace("FILE", "-")
        done = subprocess.run(["sh", "-c", line.replace("rosie ", '"$ROSIE" ', 1)], input="2024-03-11 12:30:05 INFO\n",
                              cwd=self.folder, capture_output=True, text=True, check=False)
        self.assertIn('"type":"entry"', done.stdout)
        os.unlink(path)

    def test_diagram_of_the_rule_at_the_cursor(self):
        self.open("diagram")
        self.find("#rules").click()
        self.find("#rules").send_keys(Keys.CONTROL, Keys.HOME)
        self.until("(document.querySelector('#panel svg .title') || {}).textContent === 'day'")
        self.find("#rules").send_keys(Keys.CONTROL, Keys.END)
        self.until("(document.querySelector('#panel svg .title') || {}).textContent === 'level'")

    def test_names(self):
        self.type("pattern", "")
        self.open("names")
        self.find("#search").send_keys("ipv4")
        self.assertIn("net.ipv4", self.texts(".names button"))
        self.find(".names button").click()
        self.settled()
        self.assertEqual(self.find("#pattern").get_attribute("value"), self.texts(".names button")[0])

    def test_expanded(self):
        self.type("pattern", "level")
        self.open("expand")
        self.assertTrue(self.find("#panel").text.startswith("pattern level"))

    def test_state_in_the_address(self):
        self.type("pattern", "level")
        # The page writes its state into the address a little after the typing, and later if the browser refuses it.
        self.until("decodeURIComponent(location.hash).includes(arguments[0])", '"pattern":"level"')
        address = self.driver.current_url
        self.driver.get("about:blank")
        self.driver.get(address)
        self.settled()
        self.assertEqual(self.find("#pattern").get_attribute("value"), "level")

    def test_keyboard(self):
        reached = []
        for _ in range(12):
            self.driver.switch_to.active_element.send_keys(Keys.TAB)
            reached.append(self.driver.switch_to.active_element.get_attribute("id"))
        for name in ("examples", "pattern", "mode-match", "rules", "lines", "line-0", "tab-tree"):
            self.assertIn(name, reached)
        self.driver.execute_script("document.getElementById('line-0').focus()")
        self.driver.switch_to.active_element.send_keys(Keys.ARROW_DOWN)
        self.driver.switch_to.active_element.send_keys(Keys.ARROW_DOWN)
        self.assertEqual(self.driver.switch_to.active_element.get_attribute("id"), "line-2")
        self.find("#tab-tree").send_keys(Keys.ARROW_RIGHT)
        self.assertEqual(self.driver.switch_to.active_element.get_attribute("id"), "tab-record")

    def test_examples(self):
        for number in range(len(self.driver.find_elements(By.CSS_SELECTOR, "#examples option"))):
            self.choose(number)
            self.assertEqual(self.texts(".told pre"), [])
            self.assertNotEqual(self.texts(".match"), [])

    def test_nothing_is_read_as_html(self):
        self.type("lines", '<img src=x onerror="document.title=1"><b>b</b>\n')
        self.type("pattern", '{"<img" .*} -- <script>')
        self.assertEqual(self.texts("#line-0 .root"), ['<img src=x onerror="document.title=1"><b>b</b>'])
        self.open("export")
        self.assertEqual(self.driver.find_elements(By.CSS_SELECTOR, "img, main script, #answers b b"), [])

    def test_why_anywhere(self):
        self.find("#mode-search").click()
        self.put(pattern='{"ab" [0-9]}', lines="to abc\nnone\nab1", rules="")
        self.settled()
        self.assertEqual(self.texts("#line-0 .place"), ["c"])
        self.assertIn("from byte 4 on", self.find("#line-0 .reason").text)
        self.assertEqual(self.texts("#line-1 .place"), [])
        self.assertIn("at each character", self.find("#line-1 .reason").text)

    def test_hasty_typing(self):
        self.driver.execute_script("window.asked = 0; const old = window.fetch;"
                                   "window.fetch = (...words) => { window.asked++; return old(...words); };")
        for number in range(60):
            self.put(pattern='"' + "a" * (number + 1) + '"', lines="\n".join(["a" * (number + 1)] * (number % 7 + 1)))
        self.settled()
        self.assertEqual(self.texts(".match .root"), ["a" * 60] * (59 % 7 + 1))
        self.assertEqual(self.find("#status").text, "4 of 4 lines match")
        self.assertLess(self.driver.execute_script("return window.asked"), 180)

    def test_hasty_clicks(self):
        self.driver.execute_script("document.querySelector('#line-0 .add').click();"
                                   "document.querySelector('#line-3 .add').click();"
                                   "document.querySelector('#line-1 .add').click();")
        self.until("document.getElementById('tab-tests').textContent === 'Tests (3)'")
        rules = self.find("#rules").get_attribute("value")
        self.assertEqual(rules.count("-- test entry"), 3)
        self.assertEqual(rules.count("entry = "), 1)

    def test_what_is_typed_while_a_test_is_made_stays(self):
        self.driver.execute_script("document.querySelector('#line-3 .add').click()")
        self.put(rules=self.find("#rules").get_attribute("value") + "-- typed meanwhile\n")
        self.until("document.getElementById('tab-tests').textContent === 'Tests (1)'")
        self.assertIn("-- typed meanwhile\n", self.find("#rules").get_attribute("value"))

    def test_back_from_an_example(self):
        self.put(pattern="level")
        self.settled()
        self.choose(3)
        self.assertIn("pair", self.find("#pattern").get_attribute("value"))
        self.driver.back()
        self.until("document.getElementById('pattern').value === 'level'")

    def test_more_lines_than_are_tried(self):
        self.put(pattern='"x"', lines="x\n" * 1200, rules="")
        self.settled()
        self.assertEqual(self.find("#status").text, "1000 of 1000 lines match (of 1200, the first 1000 are tried)")
        self.put(lines="x" * 600000)
        self.settled()
        self.assertEqual(self.find("#status").text, 'No answer: "Lines" has more than 524288 characters.')
        self.put(lines="x")
        self.settled()
        self.assertEqual(self.find("#status").text, "1 of 1 lines match")

    def test_hostile_texts(self):
        wild = "\ud800\0\u202e\u0301<b>&amp;\u2028😀" + "y" * 3000
        self.put(pattern=".*", lines=wild, rules="")
        self.settled()
        self.assertEqual(self.texts("#line-0 .reason"), ["not UTF-8"])
        self.put(lines=wild[1:])
        self.settled()
        self.assertEqual(self.texts("#line-0 .root"), [wild[1:].replace("\0", "\u2400")])
        for text, told in (("\0", "NUL"), ("(" * 3000, "nested too deep"), ('"\ud800"', "surrogate"),
                           ("{" * 400 + '"a"' + "}" * 400, "nested too deep")):
            self.put(pattern=text)
            self.settled()
            self.assertIn(told, self.find("#pattern-fault").text)
        self.open("expand")
        self.assertIn("nested too deep", self.find("#panel").text)

    def test_hostile_addresses(self):
        for text in ("%", "null", "[1]", '"x"', '{"pattern":{},"lines":[1],"search":"x"}', "%7B%22rules%22%3A3%7D",
                     "{" * 2000):
            self.driver.get("about:blank")
            self.driver.get(self.server.address + "#" + text)
            self.settled()
            self.assertTrue(self.find("#status").text, text[:10])

    def test_a_browser_that_refuses_a_new_address(self):
        for refusal in ("return;", "throw new Error('too often');"):
            self.driver.execute_script("const old = history.replaceState; window.refused = 0;"
                                       "history.replaceState = (...words) => { if (!window.refused++) {" + refusal
                                       + "} return old.apply(history, words); }")
            self.put(pattern=f'"{refusal}"')
            self.until("decodeURIComponent(location.hash).includes(arguments[0])", refusal)
            self.driver.refresh()
            self.settled()
            self.assertEqual(self.find("#pattern").get_attribute("value"), f'"{refusal}"')

    def test_long_texts(self):
        lines = ("0123456789" * 100 + "\n") * 40
        self.put(pattern='"0"', rules="", lines=lines)
        self.settled()
        self.until("document.getElementById('kept').textContent.includes('too long for the address')")
        self.driver.refresh()
        self.settled()
        self.assertEqual(self.find("#lines").get_attribute("value"), lines)
        self.choose(3)
        self.until("document.getElementById('kept').textContent === ''")
        self.driver.back()
        self.until("document.getElementById('pattern').value === '\"0\"'")
        self.assertEqual(self.find("#lines").get_attribute("value"), lines)

    def test_answers_belong_to_their_question(self):
        self.driver.execute_script("window.held = []; const old = window.fetch; window.fetch = (...words) =>"
                                   "new Promise(done => window.held.push(() => done(old(...words))))")
        self.put(pattern='"b"', rules="", lines="ab\nb")
        self.until("window.held.length")
        self.find("#mode-search").click()
        self.put(lines="changed")
        self.driver.execute_script("window.held[0]()")
        self.until("document.querySelectorAll('#answers > li').length === 2")
        self.assertEqual(self.texts("#line-1 .root"), ["b"])
        self.assertEqual(self.texts("#answers .row"), ["ab", "b"])

    def test_slow_answers(self):
        self.driver.execute_script("const old = window.fetch, held = new Promise(done => { window.release = done; });"
                                   "window.fetch = (...words) => held.then(() => old(...words))")
        self.put(pattern="level")
        self.until("document.getElementById('status').textContent.startsWith('Waiting')")
        self.driver.execute_script("window.release()")
        self.until("document.getElementById('status').textContent === '0 of 4 lines match'")

    def test_a_server_that_ended(self):
        server = Server(Work([EXAMPLES]))
        threading.Thread(target=server.serve_forever, daemon=True).start()
        self.driver.get(server.address)
        self.settled()
        server.shutdown()
        server.server_close()
        self.driver.execute_script("window.fetch = () => Promise.reject(new TypeError('Failed to fetch'))")
        self.put(pattern="level")
        self.settled()
        self.assertEqual(self.find("#status").text, "No answer: rosie-play cannot be reached. Is it still running?")
        self.assertEqual(self.find("#old").text, "These are the answers from before.")
        self.assertEqual(self.find("#pattern").get_attribute("value"), "level")

    def test_keyboard_passes_many_lines(self):
        self.put(pattern='"a"', rules="", lines="a\n" * 100)
        self.settled()
        self.find("#lines").click()
        reached = []
        while "tab-tree" not in reached and len(reached) < 10:
            self.driver.switch_to.active_element.send_keys(Keys.TAB)
            reached.append(self.driver.switch_to.active_element.get_attribute("id"))
        # A browser may let one scroll a list or a row of it by keys.
        self.assertIn("tab-tree", reached)

    def test_keyboard_keeps_its_place(self):
        self.driver.execute_script("document.getElementById('line-0').focus()")
        for key in (Keys.ARROW_DOWN, Keys.ARROW_DOWN, Keys.TAB, Keys.ENTER):
            self.driver.switch_to.active_element.send_keys(key)
        self.until("document.getElementById('tab-tests').textContent === 'Tests (1)'")
        self.settled()
        self.assertEqual(self.driver.execute_script(
            "return document.activeElement.closest('li').id + document.activeElement.className"), "line-2add")

    def test_reason_of_a_late_line(self):
        self.put(pattern='"a"', rules="", lines="b\n" * 80)
        self.settled()
        self.assertEqual(self.texts("#line-70 .reason"), [])
        self.open("why")
        self.find("#line-70 .state").click()
        self.until("document.getElementById('panel').textContent.includes('Line 71')")
        self.assertIn('"a" was wanted', self.find("#panel").text)
        self.assertEqual(self.texts("#line-70 .place"), ["b"])

    def test_a_test_of_a_search(self):
        self.find("#mode-search").click()
        self.put(pattern="net.ipv4", rules="", lines="to 10.0.0.1 and 10.0.0.2")
        self.settled()
        self.find("#line-0 .add").click()
        self.until("document.getElementById('tab-tests').textContent === 'Tests (1)'")
        self.assertIn('-- test entry accepts "10.0.0.1"\n', self.find("#rules").get_attribute("value"))

    def test_names_between_words(self):
        self.put(pattern="levelday")
        self.open("names")
        self.driver.execute_script("const f = document.getElementById('pattern'); f.focus(); f.setSelectionRange(5, 5)")
        self.find("#search").send_keys("net.ipv4")
        self.driver.execute_script("[...document.querySelectorAll('.names button')].find("
                                   "b => b.textContent === 'net.ipv4').click()")
        self.settled()
        self.assertEqual(self.find("#pattern").get_attribute("value"), "level net.ipv4 day")

    def test_sizes_and_contrasts(self):
        for width, dark in ((1280, False), (1280, True), (400, False), (400, True)):
            self.show(width, 900, dark)
            for tab in ("tree", "record", "why", "diagram", "expand", "tests", "export", "names"):
                self.open(tab)
                faint = [each for each in self.driver.execute_script(CONTRASTS) if each[0] < LEAST_CONTRAST]
                self.assertEqual(faint, [], (width, dark, tab))
                self.assertEqual(self.driver.execute_script(UNNAMED), [])
                self.assertLessEqual(self.driver.execute_script("return document.documentElement.scrollWidth"), width)
            if tab == "names":
                self.type("pattern", "[a-zA-Z]")
                faint = [each for each in self.driver.execute_script(CONTRASTS) if each[0] < LEAST_CONTRAST]
                self.assertEqual(faint, [])
                self.type("pattern", '{day " " time " " level}')

    def test_picture(self):
        self.show(1280, 660, False)
        picture = base64.b64decode(self.driver.get_screenshot_as_base64())
        self.assertEqual(struct.unpack(">II", picture[16:24]), (1280, 660))
        self.assertLess(len(picture), LARGEST_PICTURE)
        if PICTURE:
            with open(PICTURE, "wb") as file:
                file.write(picture)


if __name__ == "__main__":
    unittest.main()
