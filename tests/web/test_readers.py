"""For whom the page is: who uses the keyboard alone, a narrow window, a dark screen or a screen
reader, or a browser that lacks something; and its policy."""

import json
import time

from support.cases import NEEDS_LRZSZ, case, cases_in
from support.page import (
    HELD,
    SIZE,
    Loud,
    Shown,
    begin,
    choose,
    click,
    dial,
    firmware,
    picture,
    text,
    until_ended,
    until_says,
    until_share,
)
from support.program import LIMIT, folders, wants_stored, write_files
from support.rooms import BROWSERS, CHROMIUM
from support.web_peers import Held, Loader, Peer


WAY = "document.querySelector('[name=way]:checked').value"


def until_focus_shows(page):
    """Waits until it shows where the keyboard is, which it does in the window in front."""
    end = time.monotonic() + LIMIT
    while page.run("getComputedStyle(document.activeElement).outlineStyle") == "none":
        assert time.monotonic() < end, "where the keyboard is does not show"
        page.front()


@cases_in(BROWSERS, case("page: the keyboard alone", marks=NEEDS_LRZSZ))
def test_by_keyboard(room):
    """Connects and sends with Tab, Enter, the arrow keys and the space bar."""
    with folders() as (here, there), Shown(room) as page:
        loader = Loader(there)
        focused = lambda: page.run(
            "document.activeElement.id || document.activeElement.value ||"
            " document.activeElement.tagName"
        )

        def reach(wanted):
            for _ in range(40):
                if focused() == wanted:
                    return
                page.key("Tab")
            raise AssertionError("the Tab key never reaches " + wanted)

        way = page.run(WAY)
        reach(way)
        until_focus_shows(page)
        if way == "serial":
            page.key("ArrowDown")
        assert page.run(WAY) == "socket", "the arrow key chooses nothing"
        reach("address")
        page.run(
            "document.getElementById('address').value = %s" % json.dumps(loader.bridge.address)
        )
        page.key("Enter")
        page.until("!document.getElementById('connected').hidden")
        assert focused() == "screen", "not at the terminal but at " + focused()
        reach("pick")
        page.give("#pick", write_files(here, [("a.txt", b"hello")]))
        reach("send-command")
        for sign in "loady":
            page.key(sign)
        page.key("Enter")
        until_ended(page)
        assert focused() == "result-title", "not at the result but at " + focused()
        wants_stored(there, [("a.txt", b"hello")])
        loader.close()


@cases_in(BROWSERS, case("page: a narrow window", marks=NEEDS_LRZSZ))
def test_narrow(room):
    with folders() as (here, there), Shown(room, width=340, height=720) as page:
        line = Held(40000)
        loader = Loader(there, line)
        dial(page, loader.bridge.address)
        page.give(
            "#pick",
            write_files(
                here, [("a-name-that-is-rather-long-for-such-a-window-" * 4 + ".bin", bytes(90000))]
            ),
        )

        def fits():
            is_narrow = page.run("document.documentElement.scrollWidth <= innerWidth")
            assert is_narrow, "wider than the window"

        wide = "document.querySelector('#chosen%s').clientWidth"
        share = page.run("%s / %s" % (wide % " .name", wide % ""))
        assert share > 0.9, "a long name has %d %% of its row" % (100 * share)
        fits()
        picture(page, "13-narrow-chosen")
        begin(page, [], "loady")
        until_share(page, 0.2)
        fits()
        picture(page, "13-narrow")
        line.go_on()
        until_ended(page)
        fits()
        page.scheme("dark")
        picture(page, "13-narrow-dark")
        loader.close()


# What is used, or jumped to.
USED = (
    "button",
    "textbox",
    "radio",
    "spinbutton",
    "link",
    "progressbar",
    "log",
    "region",
    "heading",
    "combobox",
    "image",
    "list",
)


class Read:
    """The page as a screen reader is given it: the browser's own tree of what is there for it."""

    def __init__(self, page):
        page.call("Accessibility.enable")
        self.nodes = [
            Node(it)
            for it in page.call("Accessibility.getFullAXTree")["nodes"]
            if not it.get("ignored")
        ]

    def of(self, *roles):
        return [it for it in self.nodes if it.role in roles]

    def one(self, role, name):
        found = [it for it in self.of(role) if it.name == name]
        assert len(found) == 1, "%d of %s %r, among %s" % (
            len(found),
            role,
            name,
            [it.name for it in self.of(role)],
        )
        return found[0]

    def wants_names(self):
        """Everything that can be used has a name."""
        used = self.of(*USED)
        assert len(used) > 15, "only %d" % len(used)
        bare = [it.role for it in used if not it.name]
        assert not bare, "without a name: %s" % bare


class Node:
    def __init__(self, it):
        value = lambda what: it.get(what, {}).get("value", "")
        self.role, self.name, self.value = value("role"), str(value("name")).strip(), value("value")
        self.more = {more["name"]: more["value"].get("value") for more in it.get("properties", ())}


# What the page says by itself to who listens to it, in its order.
LISTEN = """(() => {
  const says = document.getElementById('says');
  globalThis.said = [];
  new MutationObserver(() => said.push(says.textContent)).observe(says, { childList: true, characterData: true, subtree: true });
})()"""


@cases_in(CHROMIUM, case("page: what a screen reader is told of a transfer", marks=NEEDS_LRZSZ))
def test_spoken(room):
    """A transfer as a screen reader is told of it: what is said by itself, and what it finds
    meanwhile and behind it."""
    with folders() as (here, there), Shown(room) as page:
        line = Held(SIZE * 3 // 10)
        loader = Loader(there, line)
        address = loader.bridge.address
        page.run(LISTEN)
        dial(page, address)
        begin(page, write_files(here, firmware()), "loady")
        page.until("said.includes('25 percent')")
        read = Read(page)
        read.wants_names()
        for title in ("Sending 1 file", "Terminal"):
            read.one("region", title)
            read.one("heading", title)
        read.one("button", "Cancel")
        assert 0.2 < float(read.one("progressbar", "Progress").value) < 0.4, (
            "the progress bar is at %s" % read.one("progressbar", "Progress").value
        )
        read.one("image", "The last frames and replies between this page and the device")
        # One place speaks by itself. Each byte of the terminal would be too much.
        live = [
            (it.role, it.more["live"]) for it in read.nodes if it.more.get("live", "off") != "off"
        ]
        assert live == [("status", "polite")], "what is told by itself is %s" % live
        read.one("log", "What the device prints. Keys typed here go to the device.")
        line.go_on()
        until_ended(page)
        ended = Read(page)
        ended.wants_names()
        assert ended.one("heading", "✓ Sent: the device has it all").more.get(
            "focused"
        ), "the end is not where somebody reads on"
        said = [it for it in page.run("said") if "percent" not in it]
        assert said[:2] == ["Connected: " + address, "1 file chosen"], "it said %s" % said
        assert len(said) == 3 and said[2].startswith(
            "Sent: the device has it all. 1 file, 781 KiB in "
        ), "it said %s" % said
        loader.close()


FOCUSED = "document.activeElement.id"


@cases_in(BROWSERS, case("page: what is said where somebody disconnects"))
def test_disconnects(room):
    """It is said, and the keyboard is where somebody connects anew."""
    with folders() as (_, there), Shown(room) as page:
        page.run(LISTEN)
        loader = Loader(there)
        dial(page, loader.bridge.address)
        click(page, "#disconnect")
        page.until("said.includes('Disconnected')")
        assert page.run(FOCUSED) == "dial", "not at Connect but at " + page.run(FOCUSED)
        loader.close()


@cases_in(BROWSERS, case("page: what is said where the line goes behind a transfer"))
def test_goes_behind(room):
    """What is shown of the transfer stays, and that the line went is said."""
    with folders() as (_, there), Shown(room) as page:
        loader = Loader(there)
        dial(page, loader.bridge.address)
        page.run("document.getElementById('result').hidden = false")
        page.run(LISTEN)
        loader.close()
        page.until("said.includes('The connection is gone')")


@cases_in(BROWSERS, case("page: what is said where a file is removed"))
def test_removes(room):
    with folders() as (here, _), Shown(room) as page:
        page.run(LISTEN)
        choose(page, write_files(here, [("a", b"x"), ("b", b"x")]))
        click(page, "#chosen button")
        page.until("said.at(-1) === '1 file chosen'")


# A connection that is under way for as long as the check looks.
NEVER_OPENS = "globalThis.WebSocket = class {};"


@cases_in(BROWSERS, case("page: it says that it connects"))
def test_connects(room):
    with Shown(room, NEVER_OPENS) as page:
        click(page, "[name=way][value=socket]")
        click(page, "#dial")
        until_says(page, "#dial", "Connecting…")


# Signs that the terminal may keep: 600 lines, of 1,000 each.
MOST_KEPT = 610_000


@cases_in(BROWSERS, case("page: a device that ends no line"))
def test_endless(room):
    """The terminal keeps so much of it, and no more."""

    def babbles(end):
        for _ in range(200):
            end.sendall(b"x" * 10_000)
        end.sendall(b"\r\nover")
        end.recv(1)

    with Shown(room) as page, Peer(babbles) as it:
        dial(page, it.bridge.address)
        until_says(page, "#screen", "over")
        kept = page.run("document.getElementById('screen').textContent.length")
        assert kept <= MOST_KEPT, "it keeps %d signs" % kept
        click(page, "#disconnect")


@cases_in(CHROMIUM, case("page: names for who does not see it"))
def test_names(room):
    with Shown(room) as page:
        Read(page).wants_names()


# What is wrong with the page's text, by the rules that need no eye, whatever of it is shown.
RULES = """(() => {
  const all = (what) => [...document.querySelectorAll(what)], wrong = [];
  const wants = (holds, text) => holds || wrong.push(text);
  const ids = all('[id]').map((it) => it.id);
  wants(new Set(ids).size === ids.length, 'an id stands twice');
  wants(document.documentElement.lang === 'en' && document.title !== '', 'no language, or no title');
  for (const it of ['header', 'main', 'footer', 'h1']) wants(all(it).length === 1, `${all(it).length} of ${it}`);
  wants(all('h1, h2, h3, h4').map((it) => it.tagName).join(' ').match(/^H1( H2)+$/), 'headings with a gap');
  wants(!/maximum-scale|user-scalable/.test(document.querySelector('[name=viewport]').content), 'it cannot be made larger');
  wants(all('[tabindex]').every((it) => it.tabIndex <= 0), 'an order of its own for the Tab key');
  wants(all('[aria-hidden] *, [aria-hidden]').every((it) => it.tabIndex < 0), 'something that is hidden can be reached');
  wants(all('ul').every((list) => [...list.children].every((it) => it.tagName === 'LI')), 'a list with something else in it');
  wants(all('fieldset').every((it) => it.firstElementChild.tagName === 'LEGEND'), 'a group without a legend');
  wants(all('input').every((it) => it.labels.length === 1), 'a field without its label');
  for (const it of all('*')) {
    for (const { name, value } of it.attributes) {
      if (name === 'aria-labelledby') wants(document.getElementById(value), `${value} is not there`);
      else if (name.startsWith('aria-')) wants(['aria-label', 'aria-hidden', 'aria-live'].includes(name), `${name} at ${it.tagName}`);
      else if (name === 'role') wants(['log', 'status', 'img'].includes(value), `the role ${value}`);
    }
  }
  return wrong;
})()"""


@cases_in(BROWSERS, case("page: the rules for who does not see it"))
def test_rules(room):
    with Shown(room) as page:
        wrong = page.run(RULES)
        assert not wrong, "; ".join(wrong)


@cases_in(BROWSERS, case("page: contrast"))
def test_contrast(room):
    """Text stands out from its ground by 4.5 to 1, light and dark."""
    script = """(() => {
      const canvas = document.createElement('canvas').getContext('2d', { willReadFrequently: true });
      const rgb = (color) => { canvas.clearRect(0, 0, 1, 1); canvas.fillStyle = color; canvas.fillRect(0, 0, 1, 1); return [...canvas.getImageData(0, 0, 1, 1).data]; };
      const light = ([r, g, b]) => [r, g, b].map((x) => x / 255).map((x) => x <= 0.04045 ? x / 12.92 : ((x + 0.055) / 1.055) ** 2.4).reduce((sum, x, at) => sum + x * [0.2126, 0.7152, 0.0722][at], 0);
      const ground = (node) => { for (; node; node = node.parentElement) { const color = rgb(getComputedStyle(node).backgroundColor); if (color[3] === 255) return color; } return [255, 255, 255]; };
      const poor = [];
      for (const node of document.querySelectorAll('body *')) {
        const own = [...node.childNodes].some((it) => it.nodeType === 3 && it.data.trim());
        if (!own || !node.checkVisibility() || node.closest(':disabled, .unseen, .skip, svg')) continue;
        const [one, two] = [light(rgb(getComputedStyle(node).color)), light(ground(node))].sort((a, b) => b - a);
        const ratio = (one + 0.05) / (two + 0.05);
        if (ratio < 4.5) poor.push(node.tagName + ' ' + node.textContent.trim().slice(0, 30) + ' ' + ratio.toFixed(2));
      }
      return poor;
    })()"""
    with Shown(room) as page:
        page.run(
            "document.querySelectorAll('[hidden]').forEach((it) => it.id === 'datalist' ||"
            " (it.hidden = false))"
        )
        for scheme in ("light", "dark"):
            page.scheme(scheme)
            poor = page.run(script)
            assert not poor, "%s: %s" % (scheme, poor)


NO_SERIAL = "delete Navigator.prototype.serial;"
OFF = "['choose', 'again', 'dial'].every((id) => document.getElementById(id).disabled)"


@cases_in(BROWSERS, case("page: a browser whose streams are held by a read"))
def test_held(room):
    """The page says at once that no file can be sent or received."""
    with Loud(room, HELD) as page:
        assert "It cannot run this page's module" in text(page, "#lacks"), text(page, "#lacks")


@cases_in(BROWSERS, case("page: a browser that lacks what it needs"))
def test_lacking(room):
    """A browser without serial ports, which cannot run the module: it connects all the same."""
    with Shown(room, "WebAssembly.validate = () => false;" + NO_SERIAL) as page:
        said = text(page, "#lacks")
        assert "cannot run this page's module" in said, "the page says " + said
        assert "serial ports" in said, "the page says " + said
        assert page.run(WAY) == "socket", "serial ports are offered"
        assert not page.run(OFF), "it cannot be connected"
        picture(page, "14-lacking")


@cases_in(BROWSERS, case("page: a browser that reaches nothing"))
def test_cut_off(room):
    """A browser without serial ports and WebSockets: the page says so, and Connect is off."""
    with Shown(room, NO_SERIAL + "delete globalThis.WebSocket;") as page:
        said = text(page, "#lacks")
        assert "serial ports" in said, "the page says " + said
        assert "cannot connect to anything" in said, "the page says " + said
        assert page.run(OFF), "Connect is offered"
        assert (
            page.run("document.querySelectorAll('[name=way]:enabled').length") == 0
        ), "a way is offered"
        assert page.run("document.getElementById('send').disabled"), "Send is offered"
        picture(page, "15-cut-off")


BROKEN = """
globalThis.broken = [];
document.addEventListener("securitypolicyviolation", (it) => broken.push(it.effectiveDirective));
"""

# What a script of others may try. A text as a timer's act is made into code where that is allowed.
TRIED = """(async () => {
  const made = (name, how) => document.body.append(Object.assign(document.createElement(name), how));
  made("script", { textContent: "globalThis.alien = 'a script'" });
  made("img", { src: "http://127.0.0.1:1/a.png" });
  const fetched = await fetch("http://127.0.0.1:1/").then(() => "fetched", (fault) => fault.name);
  setTimeout("globalThis.alien = 'a text'");
  await new Promise((done) => setTimeout(done));
  return [fetched, globalThis.alien ?? ""];
})()"""


@cases_in(BROWSERS, case("page: from a disk, its policy"))
def test_policy(room):
    """No code from text, no script of others, nothing fetched."""
    with Loud(room, BROKEN) as page:
        assert page.run(TRIED) == ["TypeError", ""], "it fetches, or runs what is not its own"
        wanted = ["connect-src", "img-src", "script-src", "script-src-elem"]
        page.until("broken.length >= %d" % len(wanted))
        assert sorted(page.run("broken")) == wanted, "it broke %s" % page.run("broken")
