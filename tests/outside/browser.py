#!/usr/bin/env python3
"""Pages of nights in a real browser, Debian's chromium: `make browser` installs it and runs this; no test of the gate.

    browser.py PAGE TRACE     the hill's page, made by bin/page, and the night that it was made of

In light and dark, on a telephone and on a desk: nothing is wider than the screen, folded or unfolded; a click opens each pond's story, by the list and by
the ring; the search finds by name and by key; without scripts a link still unfolds what it leads to; printed, all stories are there; the page asks for
nothing and no script complains. The same for an empty night, a bad one, and nights of 100,000 records, which open within seconds. Pictures are left in
target/page; docs/night.png is one of them.
"""
if not __debug__:
    raise SystemExit("browser: run it without -O and PYTHONOPTIMIZE, which leave its asserts out")
import base64
import io
import os
import random
import re
import subprocess
import sys
import time

sys.dont_write_bytecode = True
HERE = os.path.dirname(os.path.abspath(__file__))
ROOT = os.path.join(HERE, "..", "..")
sys.path[:0] = [os.path.join(ROOT, "tools"), HERE]
import chromium
import page

PICTURES = os.path.join(ROOT, "target", "page")
SECONDS = 8          # within which a page must be open, on a busy machine too
RECORDS = 100000
OWN = "opened 6 101 %064x 5000 %032x\n" % (7 << 250, 1)
held = 0


def same(what, got, want):
    global held
    held += 1
    if got != want:
        sys.exit("browser: %s is %r, and must be %r" % (what, got, want))


# --- Nights --------------------------------------------------------------------------------------------------------------------

def key(i):
    return "%064x" % random.Random(i).getrandbits(256)


def of_strangers():
    """Each record tells of another pond."""
    for n in range(1, RECORDS + 1):
        yield "record %d 0 0 20 76 receive FLOOD %d 116\nabout %s\nsent ACK %d\nsent INQUIRE %d %s\n" % (n, n, key(n), n, n + 1, key(n))


def neighbours():
    """Ten ponds at our sides, close together, which get the widest names."""
    keys = ["%064x" % ((7 << 250) + i * 2**240) for i in (-5, -4, -3, -2, -1, 1, 2, 3, 4, 5)]
    for n, key_there in enumerate(keys, 1):
        yield "record %d 0 0 20 76 receive FLOOD %d 116\nabout %s\nsent ACK %d\nsent INQUIRE %d %s\n" % (2 * n - 1, n, key_there, n, n + 50, key_there)
        yield "record %d 0 0 0 0 receive AUTHORITY %d 61\nanswers %d\nanswered %s %d %d FLOOD %d\n" % (2 * n, n, n + 50, key_there, n + 50, 2 * n - 1, n)
        yield "reading depth 1065353216 0 4294967295\njoined %s\nheld %d\n" % (key_there, n)
    yield "below %s\nabove %s\n" % (" ".join(keys[4::-1]), " ".join(keys[5:]))


NIGHTS = {
    "empty": "record 0 0 17 0 0 bad\nend unopened\n",
    "opening": OWN + "end whole\n",
    "bad": OWN + "record 1 1 0 0 0 tick\nrecord 2 1 16 0 0 bad\nend middle\n",
    "wide": OWN + "".join(neighbours()) + "end whole\n",
    "strangers": OWN + "".join(of_strangers()) + "end whole\n",
}


def written(name, lines):
    path = os.path.join(PICTURES, name + ".html")
    with page.kept(io.BytesIO(lines.encode())) as file:
        wide = dict.fromkeys(set(re.findall(r"\b[0-9a-f]{64}\b", lines)), "W" * 40) if name == "wide" else {}
        page.to_file(path, page.pieces(file, {key(1): "<b>a name that is as long as one may be &", key(2): "W" * 40, **wide}, name + ".trace"))
    return path


def long_night(trace):
    """The calls of a night behind one another, until they are so many: a page of a real trace, made as a keeper makes it."""
    with open(trace, "rb") as file:
        data = file.read()
    opening, calls, at = 2 + int.from_bytes(data[:2], "little"), 0, 0
    while at < len(data):
        at, calls = at + 2 + int.from_bytes(data[at:at + 2], "little"), calls + 1
    path = os.path.join(PICTURES, "long.trace")
    with open(path, "wb") as file:
        file.write(data[:opening] + data[opening:] * -(-RECORDS // (calls - 1)))
    began = time.time()
    made = subprocess.run(["bin/page", "--to", path + ".html", path, trace[:-5] + "names"], cwd=ROOT).returncode
    same("the status of bin/page", made, 0)
    print("browser: bin/page makes the page of a long night in %.1f s" % (time.time() - began))
    return path + ".html"


# --- What is seen --------------------------------------------------------------------------------------------------------------

WIDEST = """[...document.querySelectorAll('body *')].filter(e => e.getClientRects().length && e.getBoundingClientRect().right > innerWidth + 1
    && !e.closest('svg')).map(e => e.tagName + '.' + e.className).slice(0, 5)"""
UNFOLD = "[...document.querySelectorAll('details')].slice(0, 40).forEach(e => e.open = true)"
CLIPPED = """[...document.querySelectorAll('.ring text')].filter(e => e.getClientRects().length).filter(e => { const b = e.getBoundingClientRect(),
    r = e.ownerSVGElement.getBoundingClientRect(); return b.left < r.left - 1 || b.right > r.right + 1 || b.top < r.top - 1 || b.bottom > r.bottom + 1; })
    .map(e => e.textContent)"""


def quiet(browser, what):
    """The page asked for nothing else, and nothing complains."""
    asked = [event["params"]["request"]["url"] for event in browser.events if event.get("method") == "Network.requestWillBeSent"]
    same("what %s asks for" % what, [url for url in asked if not url.startswith("file://") or not url.split("#")[0].endswith(".html")], [])
    said = [event for event in browser.events if event.get("method") in ("Runtime.exceptionThrown", "Log.entryAdded")]
    same("what complains in %s" % what, said, [])


def fits(browser, path, name):
    """On a telephone and on a desk, in light and dark, folded and unfolded."""
    for screen, width, dark in (("desk", 1100, False), ("desk-dark", 1100, True), ("telephone", 360, False), ("telephone-dark", 360, True)):
        browser.screen(width, 900, dark)
        took = browser.open(path)
        same("whether %s opens within %d seconds (it took %.1f)" % (name, SECONDS, took), took < SECONDS, True)
        quiet(browser, name)
        browser.picture(os.path.join(PICTURES, "%s-%s.png" % (name, screen)), whole=True)
        for how in ("folded", "unfolded"):
            same("how wide %s is, %s, on a %s" % (name, how, screen), browser.value("document.documentElement.scrollWidth"), width)
            same("what of %s is wider than a %s, %s" % (name, screen, how), browser.value(WIDEST), [])
            browser.value(UNFOLD)
        same("labels that are cut off", browser.value(CLIPPED), [])
        same("whether it is dark", browser.value("getComputedStyle(document.body).backgroundColor.match(/\\d+/)[0] < 128"), dark)
        print("browser: %-9s %-14s opens in %.1f s, %s elements" % (name, screen, took, browser.value("document.querySelectorAll('*').length")))


def number_of(browser, word):
    """A figure at the page's head."""
    return int(browser.value("[...document.querySelectorAll('.figures div')].find(e => e.querySelector('dt').textContent === %r)"
                             ".querySelector('dd').textContent" % word).replace(",", ""))


def clicked(browser, path):
    """Each pond's story, by the list; and by the ring."""
    browser.screen(1100)
    browser.open(path)
    count = browser.value("document.querySelectorAll('details.pond').length")
    same("whether there are ponds", count > 40, True)
    for i in range(count):
        pond = "document.querySelectorAll('details.pond')[%d]" % i
        browser.click(pond + ".querySelector('summary')")
        shown = pond + ".open && " + pond + ".querySelector('.facts').getBoundingClientRect().height > 20"
        same("whether the story of pond %d is open" % i, browser.value(shown), True)
        browser.click(pond + ".querySelector('summary')")
        same("whether it is folded again", browser.value(pond + ".open"), False)
    marks = browser.value("[...document.querySelectorAll('.ring a.l')].map(e => e.getAttribute('href').slice(1))")
    same("whether each pond is on the ring", len(marks), count)
    for i, link in enumerate(marks[::6]):
        browser.open(path)
        browser.click("document.querySelectorAll('.ring a.l')[%d].querySelector('text')" % (6 * i))
        is_shown(browser, link)
    quiet(browser, "the clicked page")


def is_shown(browser, link):
    """A link has led to a story: it is unfolded, and whose it is stands on the screen."""
    told = "document.getElementById('%s').closest('details')" % link
    same("whether the ring leads to " + link, browser.value(told + ".open"), True)
    before = None
    while before != (before := browser.value("new Promise(done => setTimeout(() => done(scrollY), 300))")):  # it scrolls softly
        continue
    same("whether it is seen whose story %s is" % link, browser.value(
        "(b => b.height > 0 && b.top >= 0 && b.bottom <= innerHeight)(%s.querySelector('summary').getBoundingClientRect())" % told), True)


def searched(browser, path):
    browser.open(path)
    visible = "[...document.querySelectorAll('details.pond')].filter(e => e.getClientRects().length).map(e => e.querySelector('.who').textContent)"
    every = browser.value(visible)
    first = browser.value("document.querySelector('details.pond').dataset.key")
    for words, want in ((every[-1], [every[-1]]), (first[:12], every[:1]), ("no such pond", []), ("", every)):
        typed(browser, words)
        same("what is found by %r" % words, browser.value(visible), want)
    typed(browser, every[-1])
    browser.click("document.querySelector('.ring a.l text')")  # to a story that the search has hidden
    is_shown(browser, browser.value("document.querySelector('.ring a.l').getAttribute('href').slice(1)"))


def typed(browser, words):
    browser.value("(e => { e.value = %r; e.dispatchEvent(new Event('input')); })(document.getElementById('search'))" % words)


def without_scripts(browser, path):
    """Where the page's own script does not run, the search is not there, and a link unfolds what it leads to."""
    browser.screen(1100, script=False)
    browser.open(path)
    same("whether the search is there", browser.value("document.querySelector('.search').getClientRects().length"), 0)
    link = browser.value("document.querySelector('.ring a.l').getAttribute('href')")
    browser.click("document.querySelector('.ring a.l text')")
    same("whether the link unfolds %s" % link, browser.value("document.querySelector('%s').closest('details').open" % link), True)
    browser.click("document.querySelector('details.fold summary')")
    same("whether a click unfolds records", browser.value("document.querySelector('details.fold').open"), True)
    browser.screen(1100)


def for_the_readme(browser, path):
    """The picture that docs/night.png is: down to the ring and what its marks are."""
    browser.screen(880)
    browser.open(path)
    bottom = browser.value("document.querySelector('.legend').getBoundingClientRect().bottom + scrollY")
    browser.picture(os.path.join(PICTURES, "night.png"), clip=(0, 0, 880, round(bottom) + 24))


def printed(browser, path):
    """On paper, with the script and without, a page of the story of each pond: more sheets than the folded page has."""
    sheets = []
    for script in (True, False):
        browser.screen(1100, script=script)
        browser.open(path)
        data = base64.b64decode(browser.ask("Page.printToPDF", printBackground=False)["data"])
        with open(os.path.join(PICTURES, "hill-printed%s.pdf" % ("" if script else "-without-scripts")), "wb") as file:
            file.write(data)
        sheets.append(len(re.findall(rb"/Type\s*/Page\b", data)))
    browser.screen(1100)
    same("whether all stories are printed, on %s sheets," % sheets, min(sheets) > 12, True)
    print("browser: printed on %d sheets, %d without scripts" % tuple(sheets))


def main():
    os.makedirs(PICTURES, exist_ok=True)
    hill, trace = map(os.path.abspath, sys.argv[1:])
    with chromium.Browser() as browser:
        fits(browser, hill, "hill")
        clicked(browser, hill)
        searched(browser, hill)
        without_scripts(browser, hill)
        printed(browser, hill)
        for_the_readme(browser, hill)
        fits(browser, long_night(trace), "long")
        same("whether the long night is as long", number_of(browser, "calls") >= RECORDS, True)
        for name, lines in NIGHTS.items():
            fits(browser, written(name, lines), name)
    print("browser: %d things are as they must be; pictures in target/page" % held)


if __name__ == "__main__":
    main()
