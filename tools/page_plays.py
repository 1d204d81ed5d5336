"""Plays of tools/try-page on the page itself, in a browser."""

import re
import time
import urllib.request

import page_sites
from serve_page_plays import Window
from serve_parts import TOP, Client, Service, until, within
from serve_plays import LIMIT, put

LINE = "document.getElementById('state-line').textContent"
ROWS = "[...document.querySelectorAll('#tags tbody tr')]"
# a phone and a desk
WIDTHS = ((1280, 900), (390, 844), (320, 640))
# of each text that is seen its contrast with what is under it (WCAG 2.1, 1.4.3): the least one, and where
CONTRAST = """(() => {
  const light = ([r, g, b]) => [r, g, b].map(v => (v /= 255) <= .03928 ? v / 12.92 : ((v + .055) / 1.055) ** 2.4).reduce((sum, v, i) => sum + v * [.2126, .7152, .0722][i], 0);
  const colour = text => { const all = (text.match(/[\\d.]+/g) || []).map(Number); return all.length > 3 && all[3] < .99 ? null : all.slice(0, 3); };
  const back = node => { for (; node; node = node.parentElement) { const own = colour(getComputedStyle(node).backgroundColor); if (own) return own; } return [255, 255, 255]; };
  const walk = document.createTreeWalker(document.body, NodeFilter.SHOW_TEXT);
  let worst = [99, ''];
  while (walk.nextNode()) {
    const text = walk.currentNode, node = text.parentElement;
    if (!text.data.trim() || !node.checkVisibility() || node.closest('script, noscript, .skip')) continue;
    const a = light(colour(getComputedStyle(node).color) || [0, 0, 0]), b = light(back(node)), ratio = (Math.max(a, b) + .05) / (Math.min(a, b) + .05);
    if (ratio < worst[0]) worst = [ratio, text.data.slice(0, 40)];
  }
  return worst;
})()"""


class Shown:
    """A service on a simulated plant, with its page in the browser."""

    def __init__(self, browser, program, words, every=300, page="127.0.0.1:0"):
        self.browser = browser
        self.service = Service(program, [*words, "--listen", "127.0.0.1:0", "--every", str(every), "--page", page])
        self.service.has(r"page .*", 20)
        self.address = "http://" + [it for it in self.service.lines if it.startswith("page ")][0].split()[1] + "/"

    def open(self, line, **screen):
        """Opens the page; whether its first line comes to be such a one."""
        self.browser.open(self.address, **screen)
        return self.browser.until(f"{line}.test({LINE})", 20)

    def text(self, path):
        return urllib.request.urlopen(self.address + path, timeout=within(5)).read()

    def end(self):
        """The page ends before what it asks."""
        self.browser.call("Page.navigate", url="about:blank")
        self.service.end()


def example(name, *files):
    return [f"{TOP}/examples/{name}{it}" if not it.startswith("--") else it for it in files]


def quiet(counts, browser, what):
    """Nothing is in the browser's log."""
    counts.note(f"{what}: nothing in the browser's log", not browser.log, browser.log[:3])
    browser.log.clear()


def fits(counts, browser, what):
    wide = browser.js("document.documentElement.scrollWidth > innerWidth")
    counts.note(f"{what}: nothing is wider than the screen", not wide)


def play_well(counts, browser, program, folder):
    """All is well at the worked example."""
    shown = Shown(browser, program, example("", "site.toml", "limiter.il", "--plant", "plant.toml"))
    client = Client(shown.service.port())
    counts.note("a client writes", client.write(LIMIT, 30)[0] == 6)
    counts.note("all is well", shown.open("/^All is well$/"), browser.js(LINE))
    counts.note("the title", browser.js("document.title") == "sunsite", browser.js("document.title"))
    counts.note("each tag has a row", browser.until(f"{ROWS}.length == 5"), browser.js(f"{ROWS}.length"))
    row = f"{ROWS}.find(it => it.cells[0].textContent == 'inv1_w')"
    counts.note("a value with its unit", browser.until(rf"/^[\d,]+\u202fW$/.test({row}.cells[1].textContent)"), browser.js(f"{row}.textContent"))
    meter = "document.querySelector('#tags [role=meter]')"
    counts.note("a bar says its range", browser.js(f"{meter}.ariaValueMin == '-16000' && {meter}.ariaValueMax == '16000' && {meter}.ariaLabel != ''"), browser.js(f"{meter}.outerHTML"))
    counts.note("who set the target", browser.until("/127\\.0\\.0\\.1:/.test(document.querySelector('#sets tbody').textContent)"), browser.js("document.querySelector('#sets').textContent"))
    counts.note("what was written", browser.until("/30/.test(document.querySelector('#outputs tbody').textContent)"), browser.js("document.querySelector('#outputs').textContent"))
    counts.note("the client is there", browser.js("/may write/.test(document.querySelector('#clients').textContent)"))
    line = "[...document.querySelectorAll('#listing tbody tr')].find(it => /ADD inv2_w/.test(it.textContent))"
    counts.note("what is proved at a line", browser.js(f"/−32,000 … 32,000/.test({line}.textContent)"), browser.js(f"{line}.textContent"))
    browser.js(f"{line}.querySelector('button').click()")
    counts.note("its instructions", browser.until("/8 ADD   r DINT -16000\\.\\.16000/.test(document.querySelector('#listing pre').textContent)"))
    shows = "!document.getElementById('hour').hidden && !document.getElementById('events').hidden && document.querySelector('.spark').checkVisibility()"
    counts.note("the last hour", browser.until(shows), browser.js("document.getElementById('hour').outerHTML"))
    counts.note("the last lines", browser.until("/set target 30 was unset by/.test(document.getElementById('events').textContent)"), browser.js("document.getElementById('events').textContent"))
    counts.note("nothing moves where little is to", browser.js("getComputedStyle(document.querySelector('.flow')).animationName") == "none")
    readers(counts, browser)
    quiet(counts, browser, "all is well")
    shown.end()


def readers(counts, browser):
    """What a screen reader and a keyboard meet."""
    counts.note("landmarks", [len(browser.names(it)) for it in ("banner", "main", "navigation")] == [1, 1, 1])
    regions = set(browser.names("region"))
    counts.note("a region for each part", {"State", "Power now", "Site", "Tags", "Outputs", "Set values", "Program"} <= regions, regions)
    for role in ("button", "meter", "link", "searchbox"):
        names = browser.names(role)
        counts.note(f"each {role} has a name", names and all(names), names[:5])
    browser.js("document.activeElement.blur()")
    browser.key("Tab")
    counts.note("the first stop is the way past the head", browser.js("document.activeElement.className") == "skip")
    stops = []
    for _ in range(14):
        browser.key("Tab")
        stops.append(browser.js("document.activeElement.tagName + ' ' + document.activeElement.textContent.slice(0, 20)"))
    counts.note("then devices and the filter", any("inv1" in it for it in stops) and any("INPUT" in it for it in stops), stops)
    browser.js("{ const field = document.querySelector('#tags input'); field.value = 'inv2'; field.dispatchEvent(new Event('input')) }")
    counts.note("the filter finds by device", browser.js(f"{ROWS}.length") == 1, browser.js(f"{ROWS}.length"))


def play_alarm(counts, browser, program, folder):
    """A device falls silent and comes back; contrast, in both looks."""
    window = Window(program, folder, "alarm")
    address = f"http://127.0.0.1:{window.port}/"
    for dark in (False, True):
        what = "dark" if dark else "light"
        window.device.silent = False
        browser.open(address, dark=dark)
        counts.note(f"all is well, {what}", browser.until(f"/^All is well/.test({LINE})", 30), browser.js(LINE))
        contrast(counts, browser, f"well, {what}")
        window.device.silent = True
        counts.note(f"the device is lost, {what}", browser.until(f"/is lost/.test({LINE})", 20), browser.js(LINE))
        cards = "document.querySelectorAll('#alarms > ul > li')"
        counts.note("with what follows from it on one card", browser.until(f"{cards}.length == 1 && /with it/.test({cards}[0].textContent)"), browser.js("document.querySelector('#alarms').textContent"))
        counts.note("what to do, and since when", browser.js("/See whether|Its unit|since/.test(document.querySelector('#alarms').textContent) && document.querySelector('#alarms p').textContent.length > 10"))
        counts.note("a cross on its wire", browser.js("document.querySelectorAll('#picture .cross').length") == 2)
        counts.note("its tag is missing, and why", browser.js("/missing/.test(document.querySelector('#tags tbody').textContent)"))
        counts.note("the title warns", browser.js("document.title").startswith("● "), browser.js("document.title"))
        contrast(counts, browser, f"alarm, {what}")
    window.device.silent = False
    counts.note("and its end", browser.until(f"/^All is well/.test({LINE})", 30), browser.js(LINE))
    quiet(counts, browser, "an alarm")
    browser.call("Page.navigate", url="about:blank")
    window.end()


def contrast(counts, browser, what):
    browser.pause(1.5)
    ratio, text = browser.js(CONTRAST)
    counts.note(f"contrast: {what}", ratio >= 4.5, f"{ratio:.2f} of {text}")
    counts.tell(f"least contrast, {what}", f"{ratio:.2f}")


def play_gone(counts, browser, program, folder):
    """The service is gone, and another one is there; then another program by --reload."""
    with open(f"{TOP}/examples/limiter.il", encoding="utf-8") as it:
        text = it.read()
    own = put(folder, "own.il", text)
    words = [f"{TOP}/examples/site.toml", own, "--plant", f"{TOP}/examples/plant.toml", "--reload"]
    shown = Shown(browser, program, words)
    counts.note("all is well", shown.open("/^All is well$/"), browser.js(LINE))
    quiet(counts, browser, "before it is gone")
    page = shown.address.split("/")[2]
    shown.service.end()
    counts.note("no answer is told", browser.until(f"{LINE} == 'No answer from the gateway'", 20), browser.js(LINE))
    counts.note("and how old what is shown is", browser.until("/^What is shown is \\d+ s old/.test(document.getElementById('state-sub').textContent) && document.body.classList.contains('stale')"))
    browser.log.clear()
    shown = Shown(browser, program, words, page=page)
    counts.note("another one is found", browser.until(f"{LINE} == 'All is well' && !document.body.classList.contains('stale')", 40), browser.js(LINE))
    browser.js("window.before = true")
    browser.log.clear()
    put(folder, "own.il", text.replace("PROGRAM limiter", "PROGRAM other"))
    counts.note("another program is taken", shown.service.has(r"\S+ program taken .*|program taken .*", 20), shown.service.lines[-3:])
    counts.note("the page loads anew, and lists it", browser.until("!window.before && /PROGRAM other/.test(document.getElementById('listing').textContent)", 20))
    quiet(counts, browser, "another program")
    shown.end()


def play_hostile(counts, browser, program, folder):
    """Names are text."""
    shown = Shown(browser, program, page_sites.hostile(folder))
    for width, height in WIDTHS:
        counts.note("the page is there", shown.open("/wrong|lost|map/", width=width, height=height), browser.js(LINE))
        browser.pause(2)
        fits(counts, browser, f"hostile names, {width} pixels")
    counts.note("the site's name is text", browser.js("document.querySelector('#name').textContent") == page_sites.HOSTILE_NAME, browser.js("document.querySelector('#name').textContent"))
    counts.note("a device's name is text", browser.js("[...document.querySelectorAll('#devices .top')].some(it => it.textContent.includes('<script>alert(1)</script>'))"))
    counts.note("no name became an element", browser.js("document.querySelectorAll('script').length == 1 && document.querySelectorAll('img, iframe, [onerror]').length == 0"))
    counts.note("umlauts", browser.js("document.body.textContent.includes('Überlingen an der Straße nach Groß-Gerau')"))
    counts.note("no name turns the text around", not browser.js("/[\\u202a-\\u202e]/.test(document.body.textContent)"))
    counts.note("a tag that is called constructor", browser.js(f"{ROWS}.some(it => it.cells[0].textContent == 'constructor')"))
    quiet(counts, browser, "hostile names")
    bad = browser.js("""(async () => {
      try { const it = document.createElement('script'); it.textContent = 'window.bad = 1'; document.body.append(it); } catch {}
      try { document.body.insertAdjacentHTML('beforeend', '<img src=x onerror="window.bad = 1">'); } catch {}
      try { await fetch('http://127.0.0.2:9/'); } catch {}
      return window.bad || 0;
    })()""")
    browser.pause(0.5)
    stopped = [it for it in browser.log if "Content Security Policy" in it[2] or "Trusted" in it[2]]
    counts.note("the policy stops a script, markup and another host", bad == 0 and stopped, browser.log)
    browser.log.clear()
    shown.end()


def play_largest(counts, browser, program, folder):
    """64 devices with 1,024 tags."""
    shown = Shown(browser, program, page_sites.largest(folder), every=1000)
    counts.note("the page is there", shown.open("/wrong|lost/"), browser.js(LINE))
    browser.pause(3)
    counts.note("64 devices", browser.js("document.querySelectorAll('#devices .node').length") == 64)
    alarms = "document.querySelector('#alarms')"
    counts.note("alarms by their cause", browser.js(f"{alarms}.querySelectorAll(':scope > ul > li').length") == 3, browser.js(f"{alarms}.textContent"))
    counts.note("1,024 tags in groups that are shut", browser.js(f"/1,024 tags, 15 missing/.test(document.querySelector('#tags').textContent) && {ROWS}.length == 65"), browser.js("document.querySelector('#tags [role=status]').textContent"))
    turn = browser.js("(() => { const began = performance.now(); for (let i = 0; i < 10; i++) render(); return (performance.now() - began) / 10 })()")
    counts.tell("a turn of the page", f"{turn:.1f} ms, {browser.js('document.querySelectorAll(`*`).length')} elements")
    counts.note("a turn of the page takes little", turn < within(100), turn)
    for text, rows in (("missing", 15), ("i", 150)):
        browser.js(f"{{ const field = document.querySelector('#tags input'); field.value = '{text}'; field.dispatchEvent(new Event('input')) }}")
        found = browser.js("document.querySelectorAll('#tags tbody td:nth-child(2)').length")
        counts.note(f"the filter '{text}'", found == rows, found)
    counts.note("and a button for more", browser.js("/Show 400 more/.test(document.querySelector('#tags .more').textContent)"))
    for path in ("", "site.json", "status.json", "metrics"):
        began = time.monotonic()
        size = len(shown.text(path))
        counts.tell(f"/{path}", f"{size} bytes in {(time.monotonic() - began) * 1000:.0f} ms")
    quiet(counts, browser, "the largest site")
    shown.end()


def play_examples(counts, browser, program, folder):
    """Other examples, on a desk and on a phone."""
    for name, site in (("grid_limit", "site"), ("zero_export", "site"), ("battery", "site"), ("volt_var", "site")):
        files = example(f"{name}/", f"{site}.toml", f"{name}.il", "--plant", "plant.toml")
        shown = Shown(browser, program, [*files, "--def", f"{TOP}/models"])
        for width, height in WIDTHS[:2]:
            told = shown.open("/./", width=width, height=height) and browser.until(f"/^All is well|wrong|is|no /.test({LINE}) && !/^Asking|^No answer/.test({LINE})", 20)
            counts.note(f"{name}: the page is there", told, browser.js(LINE))
            browser.pause(1.5)
            fits(counts, browser, f"{name}, {width} pixels")
        if name == "battery":
            counts.note("no client is said", browser.js("/No client is here/.test(document.querySelector('#clients').textContent)"))
            counts.note("no set value is said", browser.js("!document.querySelector('#sets p').hidden"))
        quiet(counts, browser, name)
        shown.end()


PLAYS = (play_well, play_alarm, play_gone, play_hostile, play_largest, play_examples)


def take_pictures(browser, program):
    """Keeps what README and SERVICE show: half a minute of the worked example, on a screen and on a phone."""
    shown = Shown(browser, program, example("", "site.toml", "limiter.il", "--plant", "plant.toml"))
    client = Client(shown.service.port())
    for percent in (90, 60, 30, 45):
        client.write(LIMIT, percent)
        time.sleep(11)
    for name, screen in (("page", {}), ("page-phone", {"width": 390, "height": 844, "dark": True})):
        shown.open("/^All is well$/", **screen)
        browser.until("document.querySelector('.spark').checkVisibility()")
        browser.pause(3)
        browser.picture(f"{TOP}/docs/{name}.png")
    shown.end()
