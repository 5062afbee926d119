"""Tests of the desk, the page of tools/serve: its texts, and a dispatcher's day in Chromium without a screen, by keyboard alone on a wide
screen and by touch on a telephone, in English and in German; the names, roles and contrast of what is shown; what is printed and saved.

    python3 -m unittest tools/tests/test_desk.py

DESK_PICTURES=FOLDER keeps pictures of it. It needs chromium-driver and python3-selenium, and what tools/serve needs."""
import base64
import glob
import importlib.util
import json
import os
import random
import re
import shutil
import signal
import subprocess
import sys
import tempfile
import unittest
import urllib.parse
import xml.etree.ElementTree as tree

sys.path.insert(0, os.path.dirname(os.path.abspath(__file__)))
import beside

PAGE = os.path.join(beside.TOOLS, "lorry_tools", "desk_page")
LANGUAGES = ("en", "de")
SHORT = os.environ.get("LORRY_PLAN_TESTS") == "short"
PICTURES = os.environ.get("DESK_PICTURES")
# Debian's Python has Debian's packages; selenium is Python alone, and another Python can take it from there.
DEBIAN, DEBIAN_PACKAGES = "/usr/bin/python3", "/usr/lib/python3/dist-packages"
NEEDED = ("fastapi", "uvicorn", "jinja2")  # by tools/serve
PATIENCE = 30  # seconds for what the page shows at last

WIDE, NARROW = (1280, 900), (390, 844)
YARD_TO_BALZERS = "ask=plan&from=146&to=135&lorry=artic40&leave=2026-07-10T21%3A45"


def python_of_service():
    """Returns a Python that has the packages of tools/serve, or None."""
    asked = f"import {', '.join(NEEDED)}"
    for python in dict.fromkeys((DEBIAN, sys.executable)):
        if os.path.exists(python) and not subprocess.run([python, "-c", asked], stderr=subprocess.DEVNULL).returncode:
            return python
    return None


def missing():
    """Returns the packages that are missing."""
    if not importlib.util.find_spec("selenium") and os.path.isdir(DEBIAN_PACKAGES):
        sys.path.append(DEBIAN_PACKAGES)
    found = [] if importlib.util.find_spec("selenium") else ["python3-selenium"]
    found += [] if shutil.which("chromedriver") else ["chromium-driver"]
    found += [] if os.path.isdir("/usr/share/javascript/leaflet") else ["libjs-leaflet"]
    return found + ([] if PYTHON else [f"python3-{it}" for it in NEEDED])


beside.say_what_is_skipped("test_desk")
PYTHON = python_of_service()
MISSING = missing()
from lorry_tools.second import random_folder

if not MISSING:
    from selenium import webdriver
    from selenium.common.exceptions import StaleElementReferenceException
    from selenium.webdriver.chrome.service import Service
    from selenium.webdriver.common.action_chains import ActionChains
    from selenium.webdriver.common.keys import Keys
    from selenium.webdriver.support.wait import WebDriverWait


def read(*names):
    with open(os.path.join(PAGE, *names), encoding="utf-8") as file:
        return file.read()


class Texts(unittest.TestCase):
    """What can be seen of the page without a browser."""

    def texts(self):
        return {it: json.loads(read("texts", f"{it}.json")) for it in LANGUAGES}

    def scripts(self):
        names = [os.path.basename(it) for it in glob.glob(os.path.join(PAGE, "*.js"))]
        return {it: read(it) for it in sorted(names)}

    def test_languages_have_the_same_texts(self):
        texts = self.texts()
        self.assertEqual([*texts["en"]], [*texts["de"]])
        self.assertEqual(sorted(f"{it}.json" for it in LANGUAGES), sorted(os.listdir(os.path.join(PAGE, "texts"))))
        for key, words in texts["en"].items():
            other = texts["de"][key]
            self.assertEqual(set(re.findall(r"\{\w+\}", words)), set(re.findall(r"\{\w+\}", other)), key)
            self.assertTrue(words.strip() and other.strip(), key)

    def test_texts_that_are_named_are_there(self):
        known, page = self.texts()["en"], read("index.html")
        named = re.findall(r'data-(?:text|label|hint)="(\w+)"', page)
        for script in self.scripts().values():
            named += re.findall(r'\btext\("(\w+)"', script)
            named += [f"{it}_other" for it in re.findall(r'\bcounted\("(\w+)"', script)]
            named += re.findall(r'"data-(?:text|label|hint)": "(\w+)"', script)
        self.assertEqual([it for it in named if it not in known], [])
        self.assertGreater(len(named), 100)

    def test_nothing_is_inline_or_from_elsewhere(self):
        page = read("index.html")
        self.assertNotRegex(page, r"<style|\sstyle=|\son\w+=|<script(?![^>]*\ssrc=)")
        self.assertNotRegex(page, r"(?:src|href)=\"(?:https?:)?//")
        inline = re.compile(r"innerHTML|outerHTML|insertAdjacentHTML|\beval\(|new Function|\w\.style\b|[\"']style[\"']|https?://")
        for name, script in self.scripts().items():
            self.assertEqual(inline.findall(script.replace("http://www.w3.org/2000/svg", "")), [], name)
        self.assertEqual(re.findall(r"@import|url\(", read("desk.css")), [])

    def test_elements_that_are_named_are_there(self):
        ids = set(re.findall(r'\bid="([\w-]+)"', read("index.html")))
        for name, script in self.scripts().items():
            wanted = set(re.findall(r'\bbyId\("([\w-]+)"\)', script))
            self.assertEqual(wanted - ids, set(), name)


# Tells the texts of the page that are too faint: the contrast of letters against what is behind them, after WCAG 2.1, 1.4.3.
FAINT = r"""
const parse = (it) => { const m = /rgba?\(([^)]+)\)/.exec(it); if (!m) return null;
  const [r, g, b, a = 1] = m[1].split(/[ ,/]+/).filter(Boolean).map(Number); return {r, g, b, a}; };
const light = ({r, g, b}) => { const [x, y, z] = [r, g, b].map((it) => it / 255)
  .map((it) => it <= 0.03928 ? it / 12.92 : ((it + 0.055) / 1.055) ** 2.4); return 0.2126 * x + 0.7152 * y + 0.0722 * z; };
const ratio = (a, b) => { const [x, y] = [light(a), light(b)]; return (Math.max(x, y) + 0.05) / (Math.min(x, y) + 0.05); };
const behind = (element) => { for (let it = element; it; it = it.parentElement) {
  const found = parse(getComputedStyle(it).backgroundColor); if (found && found.a === 1) return found; } return {r: 255, g: 255, b: 255}; };
const behindShape = (text) => { const box = text.getBoundingClientRect(), [x, y] = [box.x + box.width / 2, box.y + box.height / 2];
  for (const it of document.elementsFromPoint(x, y)) { if (it === text) continue;
    if (it.tagName === 'rect') { const found = parse(getComputedStyle(it).fill); if (found) return found; }
    if (it.tagName !== 'rect' && it.namespaceURI.endsWith('svg') === false) return behind(it); } return {r: 255, g: 255, b: 255}; };
const faint = [];
const walk = document.createTreeWalker(document.body, NodeFilter.SHOW_TEXT);
let count = 0;
while (walk.nextNode()) {
  const words = walk.currentNode.nodeValue.trim(), element = walk.currentNode.parentElement;
  if (!words || !element.checkVisibility({checkVisibilityCSS: true}) || element.closest('.unseen, title, defs, noscript, option')) continue;
  const style = getComputedStyle(element), isText = element.tagName === 'text';
  const size = parseFloat(style.fontSize), bold = Number(style.fontWeight) >= 700;
  const least = size >= 24 || (bold && size >= 18.66) ? 3 : 4.5;
  const found = ratio(parse(isText ? style.fill : style.color), isText ? behindShape(element) : behind(element));
  count += 1;
  if (found < least) faint.push(`${words.slice(0, 40)}: ${found.toFixed(2)}`);
}
for (const it of document.querySelectorAll('input:not([type=radio], [type=checkbox]), select, button')) {
  if (!it.checkVisibility()) continue;
  const style = getComputedStyle(it), edge = parse(style.borderTopColor);
  const found = Math.max(ratio(edge, behind(it.parentElement)), ratio(behind(it), behind(it.parentElement)));
  if (found < 3) faint.push(`edge of ${it.id || it.textContent}: ${found.toFixed(2)}`);
}
return [count, faint];
"""

# Tells what is wider than the screen, and what is too small to be touched (WCAG 2.2, 2.5.8: 24 pixels).
UNFIT = r"""
const wide = document.scrollingElement.scrollWidth > innerWidth ? [`page of ${document.scrollingElement.scrollWidth}`] : [];
for (const it of document.querySelectorAll('main *, header *')) {
  if (it.closest('#map, .wide, pre, .unseen, [role=listbox], svg, .card input')) continue;
  const box = it.getBoundingClientRect();
  if (box.width && box.right > innerWidth + 0.5) wide.push(`${it.tagName} ${it.id} ${it.className}`);
}
for (const it of document.querySelectorAll('button, select, input, summary, .card label, .leaflet-control-zoom a')) {
  if (!it.checkVisibility() || it.matches('[type=radio], [type=checkbox]')) continue;
  const box = it.getBoundingClientRect();
  if (box.width < 24 || box.height < 24) wide.push(`small ${it.tagName} ${it.id} ${it.textContent}`);
}
return wide;
"""

# The name of an element in these tests, and the elements at which the tabulator stops.
NAME = "(it) => it.id || it.getAttribute('aria-label') || it.innerText"
STOPS = """() => [...document.querySelectorAll('a[href], button, input, select, summary, [tabindex]')].filter((it) => it.checkVisibility()
  && it.tabIndex >= 0 && !it.disabled && (it.type !== 'radio' || it.checked))"""

# Tells labels, descriptions and ids that lead nowhere or to several elements.
ASTRAY = r"""
const ids = [...document.querySelectorAll('[id]')].map((it) => it.id), wrong = ids.filter((it, k) => ids.indexOf(it) !== k);
for (const name of ['for', 'aria-controls', 'aria-labelledby', 'aria-describedby', 'aria-activedescendant', 'list'])
  for (const it of document.querySelectorAll(`[${name}]`))
    for (const id of it.getAttribute(name).split(' ')) if (!document.getElementById(id)) wrong.push(`${name} ${id}`);
const levels = [...document.querySelectorAll('h1, h2, h3, h4')].filter((it) => it.checkVisibility()).map((it) => Number(it.tagName[1]));
if (levels.filter((it) => it === 1).length !== 1) wrong.push('not one h1');
levels.forEach((it, k) => { if (k && it > levels[k - 1] + 1) wrong.push(`h${it} below h${levels[k - 1]}`); });
return wrong;
"""

# Roles that are used, and of which each element has a name.
NAMED = {"button", "checkbox", "radio", "combobox", "textbox", "spinbutton", "listbox", "option", "link", "application", "region", "form"}
NAMED |= {"group", "radiogroup", "img", "image", "table", "heading", "Date", "DateTime", "InputTime", "DisclosureTriangle", "ComboBoxSelect"}


def with_what_is_needed(test):
    """Skips a test where the browser, the service or the program is missing."""
    if MISSING:
        return unittest.skip(f"the desk's browser or service is missing: apt-get install {' '.join(MISSING)}")(test)
    return beside.needs_program(test)


class Browser:
    """Chromium without a screen, over a service. Its own language is American English."""

    def __init__(self, address, files):
        self.address = address
        options = webdriver.ChromeOptions()
        for word in ("headless=new", "no-sandbox", "disable-gpu", "disable-dev-shm-usage", "hide-scrollbars", "lang=en-US"):
            options.add_argument(f"--{word}")
        options.add_experimental_option("prefs", {"download.default_directory": files})
        options.set_capability("goog:loggingPrefs", {"browser": "ALL"})
        self.driver = webdriver.Chrome(service=Service(shutil.which("chromedriver")), options=options)
        self.run, self.command = self.driver.execute_script, self.driver.execute_cdp_cmd
        self.set_media("screen")

    def become(self, language, size):
        """Is the browser of another user from now on: the language that pages are asked for in, and the width and height of the screen."""
        agent = self.run("return navigator.userAgent")
        self.command("Emulation.setUserAgentOverride", {"userAgent": agent, "acceptLanguage": language})
        metrics = {"width": size[0], "height": size[1], "deviceScaleFactor": 1, "mobile": size[0] < 600}
        self.command("Emulation.setDeviceMetricsOverride", metrics)
        self.complaints()
        return self

    def set_media(self, media):
        """Shows the page on a screen or on paper; without movement, for which tests would have to wait."""
        still = {"name": "prefers-reduced-motion", "value": "reduce"}
        self.command("Emulation.setEmulatedMedia", {"media": media, "features": [still]})

    def open(self, query=""):
        self.driver.get(f"{self.address}/{'?' if query else ''}{query}")
        self.until(lambda: self.run("return document.body.dataset.ready") == "yes", "the page is ready")

    def until(self, is_so, what):
        """Waits until something is so."""

        def tried(_):
            try:
                return is_so()
            except StaleElementReferenceException:
                return False

        return WebDriverWait(self.driver, PATIENCE, 0.03).until(tried, what)

    def text(self, selector):
        return self.run("return [...document.querySelectorAll(arguments[0])].map((it) => it.innerText).join('\\n')", selector)

    def until_text(self, selector, words):
        """Waits until an element shows some words, on one line or several."""
        try:
            self.until(lambda: words in " ".join(self.text(selector).split()), "")
        except Exception:
            shown = {it: self.text(it).strip() for it in (selector, "#trouble", ".fault")}
            raise AssertionError(f"{words!r} isn't shown, but {shown}") from None

    def value(self, name):
        return self.run("return document.getElementById(arguments[0]).value", name)

    def address_words(self):
        return urllib.parse.parse_qs(urllib.parse.urlsplit(self.driver.current_url).query)

    # The keyboard.

    def keys(self, *keys):
        ActionChains(self.driver, 0).send_keys(*keys).perform()

    def focused(self):
        return self.run(f"return ({NAME})(document.activeElement)")

    def tab_to(self, name):
        """Presses the tabulator until an element is reached, by its id or its label. In the short form the focus is set there, if the tabulator
        may come to it: `unreached` tells whether it does."""
        if SHORT:
            assert self.run(f"const it = ({STOPS})().find((it) => ({NAME})(it) === arguments[0]); it?.focus(); return Boolean(it)", name), name
            return
        passed = []
        while self.focused() != name:
            assert len(passed) < 150, f"{name} is not reached, only {passed}"
            self.keys(Keys.TAB)
            passed.append(self.focused())

    def unreached(self):
        """Returns the elements that the tabulator should come to, and doesn't on its way around the page."""
        listen = "if (!window.reached) document.addEventListener('focusin', (event) => window.reached.push(event.target)); "
        self.run(f"{listen} window.reached = []; document.activeElement.blur()")
        end = "const seen = window.reached; return seen.indexOf(seen.at(-1)) < seen.length - 1"
        for _ in range(12):
            self.keys(*[Keys.TAB] * 25)
            if self.run(end):
                return self.run(f"return ({STOPS})().filter((it) => !window.reached.includes(it)).map({NAME})")
        return ["(the tabulator comes to no end)"]

    def press(self, name):
        self.tab_to(name)
        self.keys(Keys.ENTER)

    def type_place(self, field, letters):
        """Types the beginning of a place, and takes the first one of the list."""
        self.tab_to(field)
        self.keys(letters)
        options = f"#{field}-list [role=option]"
        self.until(lambda: self.run("return document.querySelectorAll(arguments[0]).length", options), f"places for {letters}")
        self.keys(Keys.DOWN)
        self.keys(Keys.ENTER)

    def type_time(self, field, day, month, year, clock):
        """Types a time into a field, in the order of American English."""
        self.tab_to(field)
        hour, minute = clock.split(":")
        half = "AM" if int(hour) < 12 else "PM"
        self.keys(month, day, year, Keys.TAB, f"{(int(hour) + 11) % 12 + 1:02}", minute, half)

    # Touch.

    def touch(self, selector, words=""):
        """Clicks the first element with these words, as far as it can be seen."""
        find = "return [...document.querySelectorAll(arguments[0])].find((it) => it.innerText.includes(arguments[1]) && it.checkVisibility())"
        self.until(lambda: self.run(find, selector, words), f"{selector} {words}").click()

    # What is wrong.

    def complaints(self):
        """Returns what the browser complained of since the last time, such as a breach of the content security policy."""
        return [it["message"] for it in self.driver.get_log("browser") if it["level"] in ("SEVERE", "WARNING")]

    def nameless(self):
        """Returns the elements whose role needs a name, and that have none."""
        nodes = self.command("Accessibility.getFullAXTree", {})["nodes"]
        found, named = [], 0
        for node in nodes:
            role = node.get("role", {}).get("value")
            if node.get("ignored") or role not in NAMED:
                continue
            name = node.get("name", {}).get("value", "").strip()
            named += bool(name)
            if not name and not (role == "group" and not node.get("properties")):
                found.append(f"{role} {node.get('backendDOMNodeId')}")
        return found if named > 20 else [*found, f"only {named} names"]

    def picture(self, name):
        """Keeps a picture of the whole page, where that is wanted."""
        if PICTURES:
            shot = self.command("Page.captureScreenshot", {"captureBeyondViewport": True})
            with open(os.path.join(PICTURES, f"{name}.png"), "wb") as file:
                file.write(base64.b64decode(shot["data"]))


# Causes as the service tells them, beside those of random trips.
CAUSES = [
    "with-breaks: there is a trip without breaks, and none that keeps the breaks",
    "stop-out-of-time: stop 2, Balzers, can't be served in its window; without a window it is served from Tue 7 Jul 07:00 on at the earliest",
    "stop-out-of-time: stop 1, Inn, Ost, can't be served in its window, nor at any other time of the trip, after the stops before it",
    "the-way-back: all stops can be served, but then there is no way to the goal in time",
    "horizon-in-ban: the last arrival is in a ban, Haupt & Sohn (arc 5) from Mon 6 Jul 22:00 until Tue 7 Jul 05:00 (closures.csv 3), which is on the quickest "
    "way; the first arrival is Tue 7 Jul 05:26, 26 min after the last arrival",
    "closed-for-good: each of the 4 roads from the 12 nodes that can be reached from Yard (node 3) is closed to any lorry for the next 60 d: arc 5 (rules.csv 2: "
    "area:li hgv); Weg (arc 6), which takes 2 h and is never open for so long; arc 7; and 1 more",
    "closed-for-good: even with parking everywhere there is no trip within 60 days, so on every way a road is never open for long enough; which one it is was "
    "not found, as that takes more runs of bans (--most-bans)",
    "departure-in-ban: each of the 2 roads that lead on in time is closed when the trip begins, arc 1 until Tue 7 Jul 05:00 (rules.csv 2, clause 1: area:li "
    "hgv:conditional); node 1 has hours outside which a lorry may not wait there, Mo-Fr 08:00-12:00; Sa off (parking.csv 2); with parking there it leaves at "
    "Tue 7 Jul 05:00 and arrives at Wed 8 Jul 06:00 +01:00",
    "no-parking: with parking everywhere it arrives at Tue 7 Jul 05:00 and waits at node 2 (parking.csv 4) from Mon 6 Jul 05:00 to Mon 6 Jul 06:00; Inn (node 3) "
    "(not in parking.csv) from Mon 6 Jul 07:00 to Mon 6 Jul 08:00; and 2 more places",
]


def causes_of_random_trips(count):
    """Returns the causes of random trips that have no option, with times in UTC."""
    found, seed = [], 0
    while len(found) < count:
        seed += 1
        with tempfile.TemporaryDirectory(prefix="desk-") as folder:
            command, *words = random_folder.draw_trip(random.Random(seed), "plan", folder)
            if "--form" in words or len(words) != 6 or not words[2].isdigit():
                continue
            done, printed, _ = beside.run("why_empty", *words, "--program", beside.PROGRAM)
            if done in (0, 1) and not printed.startswith("pairs"):
                found += [it.replace("UNTIL", "the last arrival") for it in printed.splitlines()]
    return found


def thirty_roads(folder):
    """Writes thirty roads side by side."""
    place = os.path.join(folder, "thirty")
    os.mkdir(place)
    tables = {
        "graph.gr": beside.graph(2, *((1, 2, 10 + it) for it in range(30))),
        "tolls.csv": "arc,toll\n" + "".join(f"{it + 1},{100 - 3 * it}\n" for it in range(30)),
        "nodes.csv": "node,lon,lat,name\n1,9.0,47.0,<b>Yard</b> & Son\n2,9.2,47.1,Goal\n",
    }
    for name, text in tables.items():
        with open(os.path.join(place, name), "w", encoding="utf-8") as file:
            file.write(text)
    return place


@with_what_is_needed
class Days(unittest.TestCase):
    """Days of a dispatcher in Liechtenstein."""

    @classmethod
    def setUpClass(cls):
        folder = tempfile.TemporaryDirectory(prefix="desk-")
        cls.addClassCleanup(folder.cleanup)
        cls.files = folder.name
        folders = [os.path.join(beside.TOP, "examples", it) for it in ("liechtenstein", "first-trip")]
        folders.append(thirty_roads(cls.files))
        words = [PYTHON, os.path.join(beside.TOOLS, "serve"), *folders, "--port", "0", "--program", beside.PROGRAM]
        serving = subprocess.Popen(words, stdin=subprocess.DEVNULL, stdout=subprocess.PIPE, text=True)
        cls.addClassCleanup(serving.stdout.close)
        cls.addClassCleanup(serving.wait, PATIENCE)
        cls.addClassCleanup(serving.send_signal, signal.SIGTERM)
        said = serving.stdout.readline()
        found = re.search(r"http://[\w.:]+", said)
        assert found, f"tools/serve said {said!r}"
        cls.browser = Browser(found[0], cls.files)
        cls.addClassCleanup(cls.browser.driver.quit)

    def check(self, browser, name):
        """Nothing on the page is too faint, too wide, too small to be touched, without a name, or astray; the browser has no complaints."""
        count, faint = browser.run(FAINT)
        self.assertGreater(count, 10, name)
        self.assertEqual((faint, browser.run(UNFIT), browser.run(ASTRAY), browser.nameless(), browser.complaints()), ([], [], [], [], []), name)
        browser.picture(name)

    def check_keyboard(self, browser, name):
        """The same, and the tabulator reaches all that can be used."""
        self.check(browser, name)
        self.assertEqual(browser.unreached(), [], name)

    def saved(self, browser, name):
        """Returns the text of a file that the browser has saved."""
        path = os.path.join(self.files, name)
        browser.until(lambda: os.path.exists(path), f"{name} is saved")
        with open(path, encoding="utf-8") as file:
            return file.read()

    def test_a_day_by_keyboard(self):
        desk = self.browser.become("en-US", WIDE)
        desk.open()
        self.check_keyboard(desk, "wide-empty")
        self.first_trip(desk)
        self.its_options(desk)
        self.handing_on(desk)
        self.another_way(desk)
        self.no_trip(desk)
        self.latest_and_breaks(desk)
        self.stops(desk)
        self.links(desk)

    def first_trip(self, desk):
        # What is missing is told first, and the focus is there.
        desk.press("plan")
        self.assertEqual(desk.focused(), "from")
        self.assertEqual(desk.text(".fault").split("\n\n")[0], "A place is missing.\nA place is missing.\nA lorry is missing.")
        desk.type_place("from", "yar")
        self.assertEqual(desk.value("from"), "Yard (146)")
        desk.type_place("to", "balz")
        desk.tab_to("lorry")
        desk.keys("artic40")
        desk.type_time("leave", "10", "07", "2026", "21:45")
        desk.press("plan")
        desk.until_text("#said", "2 options from Yard to Balzers")
        self.assertEqual(desk.focused(), "answer-title")
        whole = {"folder": ["liechtenstein"], "ask": ["plan"], "from": ["146"], "to": ["135"], "lorry": ["artic40"], "leave": ["2026-07-10T21:45"]}
        self.assertEqual(desk.address_words(), whole)

    def its_options(self, desk):
        self.assertIn("artic40; departure Fri 10 Jul 2026 21:45", desk.text("#found > p"))
        desk.tab_to("option-1")
        self.assertIn("Option 1 arrives Sat 11 Jul 05:11 cost 341.000 km 21.5 driving 26 min waiting 7 h", " ".join(desk.text(".card").split()))
        reason = "for Austrasse, closed until Sat 11 Jul 05:00"
        self.assertIn(reason, desk.text("tr.wait"))
        self.assertIn("no @ (22:00-05:00 AND weight>3.5)", desk.text("tr.wait code"))
        desk.keys(Keys.DOWN)
        desk.until_text("table.legs caption", "Legs of option 2")
        self.assertIn("wait, Yard, costs 21.750", desk.text("tr.wait"))
        self.assertEqual(desk.address_words()["option"], ["2"])
        # A bar for each part, and a strip for the road that is waited for.
        titles = desk.run("return [...document.querySelectorAll('.bars title')].map((it) => it.textContent)")
        self.assertIn("Wait, Yard: 7 h 15 min, Fri 10 Jul 21:45 to Sat 11 Jul 05:00", titles)
        desk.until(lambda: "is closed, Fri 10 Jul 22:00 to Sat 11 Jul 05:00" in desk.run(
            "return [...document.querySelectorAll('.bars title')].map((it) => it.textContent).join('; ')"), "closed roads are drawn")
        self.assertEqual(desk.text(".mark"), "A\nB")
        self.assertGreater(desk.run("return document.querySelectorAll('#map path').length"), 4)
        self.check_keyboard(desk, "wide-plan")

    def handing_on(self, desk):
        desk.press("copy-link")
        desk.until(lambda: desk.text("#handed"), "the link is copied or shown")
        for form in ("CSV", "GeoJSON", "GPX"):
            desk.press(form)
            desk.until_text("#handed", f"trip.{form.lower()} was saved.")
        rows = self.saved(desk, "trip.csv").splitlines()
        self.assertEqual(rows[0].split(",")[:4], ["option", "part", "kind", "what"])
        self.assertIn("LineString", {it["geometry"]["type"] for it in json.loads(self.saved(desk, "trip.geojson"))["features"]})
        self.assertTrue(tree.fromstring(self.saved(desk, "trip.gpx")).tag.endswith("gpx"))
        # On paper there are the options and their legs, and neither fields nor buttons.
        printed = desk.command("Page.printToPDF", {"paperWidth": 8.27, "paperHeight": 11.69})["data"]
        self.assertTrue(base64.b64decode(printed).startswith(b"%PDF"))
        desk.set_media("print")
        self.assertEqual(desk.run("return [...document.querySelectorAll('input, button, select')].filter((it) => it.checkVisibility() && "
                                  "!it.closest('.card')).map((it) => it.id)"), [])
        self.assertIn("Legs of option 2", desk.text("#answer"))
        desk.set_media("screen")
        if PICTURES:
            with open(os.path.join(PICTURES, "paper.pdf"), "wb") as file:
                file.write(base64.b64decode(printed))

    def another_way(self, desk):
        desk.tab_to("way-street")
        desk.keys("zollstr", Keys.ENTER)
        desk.until_text("#way-roads", "Zollstrasse")
        desk.press("way-ask")
        desk.until_text("#way-said", "It isn’t lawful. Zollstrasse is closed at Fri 10 Jul 22:00.")
        self.assertIn("no @ (22:00-05:00 AND weight>3.5)", desk.text("#way-found code"))
        self.assertEqual(desk.address_words()["over"], ["Zollstrasse"])
        self.check(desk, "wide-way")
        # Roads by the key Enter in the middle of the map, which is zoomed out so far that one is near.
        desk.press("way-choose")
        self.assertEqual(desk.focused(), "map")
        self.choose_road(desk, lambda: desk.keys("-", Keys.ENTER))
        desk.press("Move road 2 up")
        self.assertRegex(desk.address_words()["over"][0], r"arcs:\d+")
        desk.press("Remove road 1")
        desk.until(lambda: desk.address_words()["over"] == ["Zollstrasse"], "the road is removed")
        desk.press("way-choose")

    def choose_road(self, desk, zoom_out_and_click):
        """Zooms the map out until a road is near its middle, and chooses it."""
        count = "return document.querySelectorAll('#way-roads li').length"
        before = desk.run(count)
        for _ in range(8):
            zoom_out_and_click()
            if desk.run(count) > before:
                return
        self.fail("no road is chosen on the map")

    def no_trip(self, desk):
        desk.type_time("leave", "11", "07", "2026", "22:00")
        desk.type_time("by", "12", "07", "2026", "22:00")
        desk.press("plan")
        desk.until_text("#said", "There is no lawful trip from Yard to Balzers")
        self.assertIn("The latest arrival is within a ban.", desk.text("#found"))
        self.assertIn("rules.csv 2, clause 1", desk.text("#found"))
        self.check(desk, "wide-empty-plan")

    def latest_and_breaks(self, desk):
        desk.tab_to("ask-plan")
        desk.keys(Keys.DOWN)
        self.assertIn("Earliest departure (or 3 days before)", desk.text("#leave-label"))
        desk.type_time("leave", "10", "07", "2026", "08:00")
        desk.type_time("by", "13", "07", "2026", "08:00")
        desk.press("plan")
        desk.until_text(".card", "leaves Mon 13 Jul 07:34")
        desk.tab_to("ask-latest")
        desk.keys(Keys.DOWN)
        desk.type_time("leave", "07", "07", "2026", "07:00")
        desk.press("plan")
        desk.until_text(".card", "arrives Tue 7 Jul 07:26")

    def stops(self, desk):
        for number, (letters, window) in enumerate((("schaan", None), ("balz", ("08:00", "10:00"))), 1):
            desk.press("add-stop")
            place = desk.focused()
            desk.type_place(place, letters)
            desk.tab_to(place.replace("-place", "-minutes"))
            desk.keys(Keys.BACKSPACE, Keys.BACKSPACE, "20")
            if window:
                for field, clock in zip(("opens", "closes"), window):
                    desk.tab_to(place.replace("place", field))
                    desk.keys(clock.replace(":", ""), "AM")
            self.assertEqual(desk.text("#stops legend").splitlines()[-1], f"Stop {number}")
        desk.press("Move stop 2 up")
        self.assertEqual(desk.focused(), "Move stop 1 up")
        desk.press("plan")
        desk.until_text("#said", "1 option from Yard to Balzers")
        self.assertEqual(desk.text("tr.serve td:nth-child(2)"), "stop 1, Balzers\nstop 2, Schaan")
        self.assertIn("for the window of stop 1", desk.text("tr.wait"))
        self.assertEqual(desk.text(".mark"), "A\n1\n2\nB")
        self.check_keyboard(desk, "wide-tour")
        self.assertNotIn("With breaks", desk.text("#found"))
        desk.tab_to("breaks")
        desk.keys(" ")
        desk.press("plan")
        desk.until_text("#found", "With breaks of 45 min after 4 h 30 min of driving at most.")
        self.assertEqual((desk.address_words()["breaks"], desk.text("tr.serve td:nth-child(2)")), (["yes"], "stop 1, Balzers\nstop 2, Schaan"))
        self.check(desk, "wide-tour-breaks")
        desk.press("Remove stop 2")
        desk.press("Remove stop 1")
        self.assertEqual(desk.focused(), "add-stop")

    def links(self, desk):
        """The address has the whole request, and going back shows the one before."""
        desk.open(f"{YARD_TO_BALZERS}&option=2&certificate=yes&over=Zollstrasse")
        desk.until_text("#way-said", "It isn’t lawful.")
        self.assertEqual(desk.text("table.legs caption"), "Legs of option 2\nYour way")
        self.assertIn("The certificate was accepted, with 2 pairs.", desk.text("#found"))
        desk.press("swap")
        desk.press("plan")
        desk.until_text("#said", "from Balzers to Yard")
        desk.driver.back()
        desk.until_text("#said", "2 options from Yard to Balzers")
        # A time that the clock shows twice is asked back.
        desk.open(YARD_TO_BALZERS.replace("2026-07-10T21", "2026-10-25T02"))
        desk.until_text("#leave-fault", "The clocks are put back then")
        desk.touch("#leave-fault button", "the second time (+01:00)")
        desk.until_text("#said", "from Yard to Balzers")
        self.assertIn("+01:00", desk.address_words()["leave"][0])

    def test_a_day_by_touch(self):
        desk = self.browser.become("de-DE", NARROW)
        desk.open()
        self.assertEqual(desk.run("return document.documentElement.lang"), "de")
        self.check(desk, "narrow-empty")
        for words in ("Von hier", "Nach hier"):
            desk.touch("#show-all")
            desk.touch("#map")
            desk.touch(".pop-up button", words)
            self.check(desk, f"narrow-{words.split()[0]}")
        self.assertTrue(desk.value("from") and desk.value("to"))
        desk.open(YARD_TO_BALZERS)
        desk.until_text("#said", "2 Möglichkeiten von Yard nach Balzers")
        self.assertIn("auf Austrasse, gesperrt bis Sa. 11. Juli 05:00", desk.text("tr.wait"))
        self.check(desk, "narrow-plan")
        desk.touch(".card label", "Möglichkeit 2")
        desk.until_text("table.legs caption", "Abschnitte von Möglichkeit 2")
        desk.touch("#way-choose")
        desk.run("window.scrollTo(0, document.getElementById('map').offsetTop - 100)")
        self.choose_road(desk, lambda: desk.touch(".leaflet-control-zoom-out") or desk.touch("#map"))
        desk.touch("#way-ask")
        desk.until(lambda: desk.text("#way-said").startswith(("Er ist nicht erlaubt", "Ankunft")), "the way is explained")
        self.check(desk, "narrow-way")
        # English is chosen, and stays in the address.
        desk.run("const it = document.getElementById('language'); it.value = 'en'; it.dispatchEvent(new Event('change'))")
        desk.until_text("#said", "2 options from Yard to Balzers")
        self.assertEqual(desk.address_words()["language"], ["en"])
        desk.touch("#clear")
        self.assertEqual((desk.value("from"), desk.text("#said")), ("", "No trip has been planned yet."))

    def test_details_of_causes_in_german(self):
        """What the service tells of a cause is German too, whatever the cause is: each sentence is known, and no English word is left."""
        desk = self.browser.become("de-DE", WIDE)
        desk.open(YARD_TO_BALZERS.replace("2026-07-10T21%3A45", "2026-07-11T22%3A00") + "&by=2026-07-12T22%3A00")
        desk.until_text("#found", "Die späteste Ankunft liegt in einem Fahrverbot. die späteste Ankunft liegt in einem Fahrverbot, Landstrasse (Straße 1345) "
                                  "bis Mo. 13. Juli 05:00 (rules.csv, Zeile 2, Klausel 1: area:li hgv:conditional); dort muss noch gefahren werden; "
                                  "die erste Ankunft ist Mo. 13. Juli 05:26, 7 Std. 26 Min. nach der spätesten Ankunft")
        self.check(desk, "wide-german-cause")
        said = [it.partition(": ")[2] for it in CAUSES + causes_of_random_trips(20 if SHORT else 300)]
        translate = "const done = arguments[1]; import('./desk/detail_words.js').then((it) => done(arguments[0].map(it.sentencesIn)))"
        found = desk.driver.execute_async_script(translate, said)
        for english, german in zip(said, found):
            self.assertIsNotNone(german, english)
            self.assertNotRegex(german, r"\b(the|is|are|from|until|which|with|and|arc|node|row|clause|any|lorry)(?=[ ,;]|$)", english)
            self.assertEqual(re.findall(r"\d\d:\d\d|\b\w+\.csv", german), re.findall(r"\d\d:\d\d|\b\w+\.csv", english))

    def test_a_folder_without_coordinates(self):
        desk = self.browser.become("en-US", NARROW)
        desk.open("folder=first-trip&ask=plan&from=1&to=3&lorry=any&leave=2026-07-10T08%3A00")
        desk.until_text("#said", "from node 1 to node 3")
        self.assertIn("no coordinates", desk.text("#map-help"))
        self.check(desk, "narrow-numbers")
        # What can't be read is told in the words of the service, and by its status.
        desk.open("folder=liechtenstein&ask=plan&from=Industriestrasse&to=135&lorry=artic40&leave=2026-07-10T21%3A45")
        desk.until_text("#trouble", "Choose one of these places:")
        desk.touch("#trouble button", "(175)")
        desk.until_text("#said", "from Industriestrasse to Balzers")
        # So is a service that can't be reached; the form stays as it is, and the next try can do.
        self.addCleanup(self.set_line, desk, True)
        self.set_line(desk, False)
        desk.touch("#plan")
        desk.until_text("#trouble", "The service can’t be reached.")
        self.set_line(desk, True)
        desk.touch("#plan")
        desk.until_text("#said", "from Industriestrasse to Balzers")
        self.assertEqual(desk.text("#trouble"), "")

    def set_line(self, desk, is_there):
        """Cuts the line between the browser and the service, or mends it."""
        speed = -1 if is_there else 0
        line = {"offline": not is_there, "latency": 0, "downloadThroughput": speed, "uploadThroughput": speed}
        desk.command("Network.enable", {})
        desk.command("Network.emulateNetworkConditions", line)

    def test_many_options(self):
        """Thirty roads side by side, each a minute longer and 2.000 cheaper; names that look like elements of a page stay names."""
        desk = self.browser.become("en-US", WIDE)
        desk.open("folder=thirty&ask=plan&from=1&to=2&lorry=any&leave=2026-07-06T06%3A00&option=30")
        desk.until_text("#said", "30 options from <b>Yard</b> & Son to Goal")
        self.assertEqual(desk.run("return document.querySelectorAll('.card').length"), 30)
        self.assertIn("cost 52.000", " ".join(desk.text(".card:last-child").split()))
        self.assertEqual(desk.text("table.legs caption"), "Legs of option 30")
        for shown in ("#option-30 + label", ".chosen-row"):
            box = desk.run("return document.querySelector(arguments[0]).getBoundingClientRect().toJSON()", shown)
            frame = desk.run("return document.querySelector(arguments[0]).closest('.cards, .days').getBoundingClientRect().toJSON()", shown)
            self.assertTrue(frame["top"] <= box["top"] and box["bottom"] <= frame["bottom"], f"{shown} is in view")
        self.check_keyboard(desk, "wide-many")


if __name__ == "__main__":
    unittest.main()
