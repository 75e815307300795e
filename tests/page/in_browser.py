"""The page in a browser."""
import base64
import json
import os
import random
import time
from typing import Iterator, List, Tuple

from browser import Browser, Lost
from shown import Page, differences, fragment
from turns import counted, too_much
from vithrynel.story import COMMENT
from wanted import Played

MANY = 40  # scripts that are shown in one go
LONG = 600  # seconds, after which nothing comes any more
LOST = "conversation/frame-lost"  # the script of the menu in which a frame is lost


def says_what_plays(page: Page, scripts: List[Played]) -> Iterator[str]:
    """What plays is made from the proved program, and the page does not say that it is that."""
    page.open()
    words = page.browser.value("document.querySelector('header p').textContent")
    if "made from the proved" not in words.replace("\n", " "):
        yield words


def opens(page: Page, scripts: List[Played]) -> Iterator[str]:
    """It plays the conversation as it is opened, asks for nothing but itself, and breaks no rule of its own."""
    page.browser.events.clear()
    page.open()
    call = next(it for it in scripts if it.name == "conversation/call")
    yield from differences(call, page.look())
    asked = [it["params"]["request"]["url"] for it in page.browser.events if it["method"] == "Network.requestWillBeSent"]
    if [it for it in asked if not it.startswith(("blob:", "about:", page.url))]:
        yield f"it asks for {asked}"
    yield from told_wrong(page)


def told_wrong(page: Page) -> Iterator[str]:
    for it in page.browser.events:
        if it["method"] in ("Runtime.exceptionThrown", "Log.entryAdded"):
            yield f"{it['method']}: {json.dumps(it['params'])[:300]}"


def shows_all(page: Page, scripts: List[Played]) -> Iterator[str]:
    """Each script, by its address."""
    page.open()
    those = [it for it in scripts if it.is_text()]
    for at in range(0, len(those), MANY):
        some = those[at : at + MANY]
        told = page.browser.value(f"shownAll({json.dumps([fragment(it.script) for it in some])})", 120)
        for it, got in zip(some, told):
            if got["text"].encode() != it.script:
                yield f"{it.name}: another script"
            yield from (f"{it.name}: {how}" for how in differences(it, got))
    yield from told_wrong(page)
    if len(those) < 300:
        yield f"only {len(those)} scripts"


def has_menu(page: Page, scripts: List[Played]) -> Iterator[str]:
    """The menu has each subject, and what it offers is played without a fault."""
    page.open()
    groups = page.browser.value("[...document.querySelectorAll('#menu optgroup')].map((it) => it.label)")
    wanted = ["Conversations", "Recovery", "TEI management", "A terminal", "Hostile terminals", "Both ends of a trunk"]
    if groups[: len(wanted)] != wanted:
        yield f"subjects {groups}"
    by_name = {it.name: it for it in scripts}
    names = page.browser.value("[...document.querySelectorAll('#menu option')].map((it) => it.value).filter(Boolean)")
    for name in names:
        got = page.choose(name)
        if name in by_name:
            yield from (f"{name}: {how}" for how in differences(by_name[name], got))
        elif "No fault." not in got["verdict"]:
            yield f"{name}: {got['verdict']}"


def marks_faults(page: Page, scripts: List[Played]) -> Iterator[str]:
    """A fault is told on its line while one types, with how far it is played, and goes as the line is mended."""
    page.open()
    got = page.type("card 1 8 7 8 4 4 64 260 3\nassign 0 64\nin 0 0081Z\nstored\n")
    if (got["faulty"], got["band"]) != (["3"], "bad octets") or not got["verdict"].startswith("line 3: bad octets: HEX is"):
        yield f"{got['faulty']} {got['band']} {got['verdict']}"
    if got["howFar"] != "played up to the fault in line 3":
        yield f"beside a fault: {got['howFar']}"
    got = page.type("card 1 8 7 8 4 4 64 260 3\nassign 0 64\nin 0 00817F\nstored\n")
    if got["faulty"] or got["band"] or "No fault." not in got["verdict"] or got["howFar"] != "all is played":
        yield f"{got['faulty']} {got['band']} {got['verdict']} {got['howFar']}"


def explains_faults(page: Page, scripts: List[Played]) -> Iterator[str]:
    """What each kind of fault means stands in Help, and beside the fault."""
    page.open()
    rows = page.browser.value("[...document.getElementById('faults').rows].map((it) => [...it.cells].map((it) => it.textContent))")
    meanings, met = dict(rows[1:]), set()
    for it in (it for it in scripts if it.fault and it.is_text()):
        kind = it.fault.partition(": ")[2]
        if kind not in meanings:
            yield f"{it.name}: Help does not have {kind}"
        elif kind not in met:
            met.add(kind)
            got = page.browser.value(f"shown({json.dumps(fragment(it.script))})")
            if got["verdict"] != f"{it.fault}: {meanings[kind]}":
                yield f"{it.name}: {got['verdict']}"
    if len(met) < 10:
        yield f"only {sorted(met)} came"


def explains_whole(page: Page, scripts: List[Played]) -> Iterator[str]:
    """The box beside a fault shows all of its explanation, and the line that is being written stays in view."""
    kinds = {it.fault.partition(": ")[2]: it for it in scripts if it.fault and it.is_text()}
    box = "(({ scrollHeight, clientHeight }) => [scrollHeight, clientHeight])(document.getElementById('verdict'))"
    for size in ((1360, 860), (1024, 600), (1024, 768)):
        page.open(size=size)
        for kind, it in kinds.items():
            page.browser.value(f"shown({json.dumps(fragment(it.script))})")
            whole, shown = page.browser.value(box)
            if whole > shown:
                yield f"at {size[0]} x {size[1]} {kind}: {shown} of {whole} pixels are shown"
    page.type("card 1 8 7 8 4 4 64 260 3\n" + "assign 0 64\n" * 60)
    page.browser.value("{const text = document.getElementById('text'); text.setSelectionRange(1e6, 1e6); text.scrollTo(0, 1e6);}")
    page.type("card 1 8 7 8 4 4 64 260 3\n" + "assign 0 64\n" * 60 + "wait 9999999")
    page.browser.value("new Promise((go) => requestAnimationFrame(() => requestAnimationFrame(go)))")
    if page.browser.value("(({ scrollTop, clientHeight }) => scrollTop + clientHeight < 62 * 20)(document.getElementById('text'))"):
        yield "the line that is being written is out of view"


def leaves_help(page: Page, scripts: List[Played]) -> Iterator[str]:
    """Help makes room for the ladder as a script is chosen, typed or stepped."""
    acts = {"chosen": lambda: page.choose(LOST), "typed": lambda: page.type("card 1 8 7 8 4 4 64 260 3\n"),
            "stepped": lambda: page.browser.key("F8", 119), "of an address": lambda: page.browser.value(
                f"shown({json.dumps(fragment(b'card 1 1 7 8 4 4 64 260 3'))})")}
    page.open()
    for name, act in acts.items():
        page.click("#tab-help")
        act()
        if page.browser.value("[document.getElementById('ladder').hidden, document.getElementById('help').hidden]") != [False, True]:
            yield f"Help stays over the ladder of a script that is {name}"
    page.click("#tab-transcript")
    page.choose(LOST)
    if page.browser.value("document.getElementById('transcript').hidden"):
        yield "the transcript goes as a script is chosen"


def puts_examples(page: Page, scripts: List[Played]) -> Iterator[str]:
    """An example of Help goes into the script, and Help makes room for what comes of it; on a phone, too."""
    for size in ((1360, 860), (390, 780)):
        page.open(size=size, is_phone=size[0] < 760)
        page.type("card 1 8 7 8 4 4 64 260 3\nassign 0 64\n")
        page.click("#tab-help")
        if page.browser.value("/on the (left|right)/.test(document.getElementById('help').innerText)"):
            yield f"at {size[0]} pixels Help says where the script is"
        page.browser.value("document.getElementById('text').setSelectionRange(1000, 1000)")
        page.browser.value("[...document.querySelectorAll('#frames button')].find((it) => it.textContent === 'in 0 00817F').click()")
        page.browser.until("document.getElementById('text').value.endsWith('\\nin 0 00817F\\n')")
        page.browser.until("isPlayed()")
        got = page.look()
        if not any("establish-indication 64" in row[1] for row in got["ladders"][0]["rows"]):
            yield f"at {size[0]} pixels: {got['ladders']}"
        if page.browser.value("[document.getElementById('ladder').hidden, document.getElementById('help').hidden]") != [False, True]:
            yield f"at {size[0]} pixels Help stays over the ladder"


def loses_a_frame(page: Page, scripts: List[Played]) -> Iterator[str]:
    """As a new user: the script in which a frame is lost; an octet of the frame after it is changed; no REJ goes any more,
    and the frame is dropped for its check."""
    page.open()
    got = page.choose(LOST)
    rows = got["ladders"][0]["rows"]
    rej = [row for row in rows if row[0] == "out" and " rej " in row[1]]
    if len(rej) != 1:
        yield f"REJ goes {len(rej)} times"
        return
    lines = got["text"].split("\n")
    number = max(row[4] for row in rows if row[0] == "in" and row[4] < rej[0][4])
    changed = lines[number - 1][:22] + ("0" if lines[number - 1][22] != "0" else "1") + lines[number - 1][23:]
    lines[number - 1] = changed
    rows = page.type("\n".join(lines))["ladders"][0]["rows"]
    if any(" rej " in row[1] for row in rows) or not [row for row in rows if row[4] == number and row[3] == "dropped fcs"]:
        yield f"line {number}, {changed}: {[row for row in rows if row[4] >= number][:3]}"


def makes_no_markup(page: Page, scripts: List[Played]) -> Iterator[str]:
    """What stands in a script is shown as it is."""
    page.open()
    evil = '<img src=x onerror="window.evil=1"><script>window.evil=1</script><b>bold</b>&amp;'
    count = "document.querySelectorAll('img, script, b, iframe').length"
    page.type("card 1 8 7 8 4 4 64 260 3\nassign 0 64\n")
    before = page.browser.value(count)
    got = page.type(f"# {evil}\ncard 1 8 7 8 4 4 64 260 3\nassign 0 64\n# {evil}\n{evil}\n")
    if page.browser.value("window.evil") or page.browser.value(count) != before:
        yield "a script's text has become markup"
    if [row[1] for row in got["ladders"][0]["rows"] if row[0] == COMMENT] != [evil, evil]:
        yield f"comments {got['ladders'][0]['rows']}"
    page.open(fragment(f"# {evil}\n".encode()))
    if page.browser.value("window.evil") or page.look()["text"] != f"# {evil}\n":
        yield "by the address, a script's text has become markup"
    page.open("#script=%%%")
    if not page.look()["text"].startswith("# A terminal is plugged in."):
        yield "an address that is none has another script"


def steps(page: Page, scripts: List[Played]) -> Iterator[str]:
    """By keys it plays line by line, and shows what a script of these lines shows."""
    page.open()
    whole = page.look()
    lines = whole["text"].split("\n")
    stops = [at for at, it in enumerate(lines, 1) if it and not it.startswith("#")]
    for count in (1, 2, 3):
        page.browser.key("F8", 119)
        got = page.look()
        if page.browser.value("document.getElementById('how-far').textContent") != f"played up to line {stops[count - 1]}":
            yield f"step {count}: {page.browser.value('document.getElementById(`how-far`).textContent')}"
        before = "".join(f"{it}\n" for it in lines[: stops[count - 1]])
        alone = page.browser.value(f"shown({json.dumps(fragment(before.encode()))})")
        if alone["ladders"] != got["ladders"] or alone["said"] != got["said"]:
            yield f"step {count}: another ladder than of these lines alone"
        page.browser.value(f"shown({json.dumps(fragment(whole['text'].encode()))})")
        for _ in range(count):
            page.browser.key("F8", 119)
            page.look()
    page.browser.key("F7", 118)
    page.look()
    if page.browser.value("document.getElementById('how-far').textContent") != f"played up to line {stops[1]}":
        yield "F7 goes to another line"
    page.browser.key("F9", 120)
    if page.look()["ladders"] != whole["ladders"]:
        yield "F9 does not play all"


def leads(page: Page, scripts: List[Played]) -> Iterator[str]:
    """A row leads to its line, and a line marks its rows; by mouse and by keys."""
    page.open()
    got = page.look()
    line = "caret()"
    at, row = next((at, it) for at, it in enumerate(got["ladders"][0]["rows"]) if it[0] == "up")
    page.browser.value(f"document.querySelectorAll('#ladder [data-line]')[{at}].click()")
    if page.browser.value(line) != row[4]:
        yield f"a click on row {at} leads to line {page.browser.value(line)}, wanted {row[4]}"
    marked = page.browser.value("[...document.querySelectorAll('#ladder .is-here')].map((it) => Number(it.dataset.line))")
    if not marked or set(marked) != {row[4]}:
        yield f"marked are rows of {marked}"
    page.browser.value("document.querySelector('#ladder [tabindex=\"0\"]').focus()")
    page.browser.key("ArrowDown", 40)
    page.browser.key("Enter", 13, text="\r")
    if page.browser.value(line) != got["ladders"][0]["rows"][at + 1][4]:
        yield "Enter on the next row leads to another line"
    page.click("#tab-transcript")
    page.click("#transcript .said")
    if page.browser.value(line) != got["ladders"][0]["rows"][2][4]:
        yield f"the transcript's first line leads to line {page.browser.value(line)}"
    if not page.browser.value("document.getElementById('ladder').hidden"):
        yield "the ladder stays beside the transcript"


def has_fields(page: Page, scripts: List[Played]) -> Iterator[str]:
    """The card's numbers are fields, which change the card line and nothing else."""
    page.open()
    before = page.look()["text"].split("\n")
    for name, value, wanted in [
        ("K", "3", "card 1 8 3 8 4 4 64 260 3"),
        ("side", "user", "card 1 8 3 8 4 4 64 260 3 user"),
        ("K16", "2", "card 1 8 3 8 4 4 64 260 3 2 user"),
        ("kind", "frames", "frames 1 8 3 8 4 4 64 260 3 2 user"),
        ("side", "terminal", "frames 1 8 3 8 4 4 64 260 3 2 user 0"),
        ("seed", "4660", "frames 1 8 3 8 4 4 64 260 3 2 user 4660"),
        ("SAPI", "62", "frames 1 8 3 8 4 4 64 260 3 2 user 4660 sapi 62"),
        ("rows", "annex-b", "frames 1 8 3 8 4 4 64 260 3 2 user 4660 sapi 62 annex-b"),
    ]:
        page.browser.value(f"change({json.dumps(name)}, {json.dumps(value)})")
        after = page.look()["text"].split("\n")
        if after[1] != wanted or after[:1] + after[2:] != before[:1] + before[2:]:
            yield f"{name} {value}: {after[1]!r}, wanted {wanted!r}"


def links(page: Page, scripts: List[Played]) -> Iterator[str]:
    """A link carries the script, and its capture is that of tools/capture."""
    page.open()
    page.type("# \N{GREEK SMALL LETTER ALPHA}\ncard 1 1 7 8 1 4 64 260 3\nassign 0 0\n")
    page.click("#link")
    found = page.browser.value("location.hash")
    if found != fragment("# \N{GREEK SMALL LETTER ALPHA}\ncard 1 1 7 8 1 4 64 260 3\nassign 0 0\n".encode()):
        yield f"the address has {found}"
    page.open()
    page.browser.value("""{window.saved = []; const make = URL.createObjectURL;
        URL.createObjectURL = (blob) => { saved.push(blob.arrayBuffer()); return make(blob); };
        HTMLAnchorElement.prototype.click = function () { window.named = this.download; };}""")
    page.click("#ladder .names button")
    page.click("#save")
    text = "(all) => all.map((it) => btoa(String.fromCharCode(...new Uint8Array(it))))"
    got = page.browser.value(f"Promise.all(saved).then({text})")
    call = next(it for it in scripts if it.name == "conversation/call")
    if got != [call.captures[0], base64.b64encode(call.transcript.encode()).decode()]:
        yield "another capture or transcript is saved"
    if page.browser.value("named") != "call.transcript":
        yield f"it is saved as {page.browser.value('named')}"


def is_awake(page: Page, scripts: List[Played]) -> Iterator[str]:
    """What is long or wild does not take the page away."""
    numbers = random.Random(921)
    signs = "".join(chr(it) for it in range(32, 127)) + "\n\t<>&\N{GREEK SMALL LETTER ALPHA}\N{GRINNING FACE}"
    begin = "card 64 8 7 8 4 4 64 260 3\n" + "".join(f"assign {it} 64\nin {it} 00817F\npull {it} 20\n" for it in range(64))
    turns = "".join(f"in 0 0081{2 * at % 256:02X}{2 * at % 256:02X}41\ndata 0 64 42\npull 0 30\n" for at in range(3333))
    comments = "".join("# " + "".join(numbers.choices(signs[:90], k=60)) + "\n" for _ in range(33000))
    cases = {
        "2 MB of random text": "".join(numbers.choices(signs, k=2 << 20)),
        "2 MB in a line": "# " + "".join(numbers.choices(signs.replace("\n", ""), k=2 << 20)),
        "2 MB after a card line": f"card 1 8 7 8 4 4 64 260 3\n{comments}in 0 00\n",
        "64 lines": begin,
        "ten thousand events": f"card 1 8 7 8 4 4 64 260 3\nassign 0 64\nin 0 00817F\npull 0 20\n{turns}",
        "ten thousand waits": "card 1 8 7 8 4 4 64 260 3\nassign 0 64\n" + "establish 0 64\nwait 3600000\nstored\n" * 3334,
    }
    with counted(page.browser):
        for name, script in cases.items():
            page.open()
            page.browser.value("turns.begin()")
            page.browser.value(f"type({json.dumps(script)})", LONG)
            most = page.browser.value("turns.most()")
            if os.environ.get("PAGE_TURNS"):
                print(f"page: {name}: at most {most} of {len(script)} signs")
            yield from (f"{name}: {it}" for it in too_much(most, script))
            if not page.browser.value("isPlayed()"):
                yield f"{name}: it is not played"


def can_be_stopped(page: Page, scripts: List[Played]) -> Iterator[str]:
    """A long play tells of itself, and is stopped; then the page plays on."""
    page.open()
    turns = "".join(f"in 0 0081{2 * at % 256:02X}{2 * at % 256:02X}41\ndata 0 64 42\npull 0 4000\n" for at in range(30000))
    script = f"card 1 8 7 8 4 4 64 260 3\nassign 0 64\nin 0 00817F\npull 0 20\n{turns}"
    page.browser.value(f"void type({json.dumps(script)})")
    try:
        page.browser.until("!document.getElementById('progress').hidden")
        words = page.browser.value("document.getElementById('progress-words').textContent")
        if not words:
            yield "nothing is told while it is played"
        page.click("#stop")
        page.browser.until("isPlayed()")
    except Lost as lost:
        yield str(lost)
    got = page.look()
    if not got["verdict"].startswith("Stopped") or got["howFar"] != "stopped":
        yield f"verdict {got['verdict']}, {got['howFar']}"
    got = page.choose("conversation/call")
    if "No fault." not in got["verdict"]:
        yield f"after a stop: {got['verdict']}"


def fits(page: Page, scripts: List[Played]) -> Iterator[str]:
    """It fits a phone's width, and has colours of its own for the dark."""
    page.open()
    light = page.browser.value("getComputedStyle(document.body).backgroundColor")
    page.browser.size(1360, 860, is_dark=True)
    if page.browser.value("getComputedStyle(document.body).backgroundColor") == light:
        yield "it is as light in the dark"
    for width in (360, 390, 768):
        page.browser.size(width, 780, is_phone=True)
        page.browser.until(f"innerWidth === {width}")
        wide = page.browser.value("document.scrollingElement.scrollWidth")
        if wide > width:
            yield f"at {width} pixels it is {wide} wide"


def is_read_when_low(page: Page, scripts: List[Played]) -> Iterator[str]:
    """On a phone that is held sideways, and in a low window, the card's form is closed, and script, verdict, steps and ladder are
    on the screen."""
    is_open = "document.getElementById('card').open"
    for width, height in ((844, 390), (800, 360), (932, 430), (1024, 600)):
        page.open(size=(width, height), is_phone=width < 1000)
        if page.browser.value(is_open):
            yield f"at {width} x {height} the form is open"
        lines = 200 if height == 600 else 90
        for name, least in (("text", lines), ("verdict", 10), ("steps", 20), ("how-far", 10), ("ladder", 150)):
            box = page.browser.value(f"boxOf('#{name}')")
            if box["height"] < least or box["top"] < 0 or box["bottom"] > height:
                yield f"at {width} x {height}: {name} is {box}"
        page.browser.value(f"{is_open} = true")
        page.browser.value("document.getElementById('steps').scrollIntoView()")
        if page.browser.value("boxOf('#steps')")["bottom"] > height + 1:
            yield f"at {width} x {height} an open form keeps the steps off the screen"
        page.browser.value("document.getElementById('how-far').scrollIntoView()")
        if page.browser.value("boxOf('#how-far')")["bottom"] > height + 1:
            yield f"at {width} x {height} an open form cuts how far it is played"
    page.open(size=(1000, 700))
    if not page.browser.value(is_open):
        yield "the form is closed where there is room"
    page.browser.value("document.querySelector('#fields [name=K]').focus()")
    page.browser.size(1000, 420)
    page.browser.until("innerHeight === 420")
    if not page.browser.value(is_open):
        yield "the form is closed while it is filled in"
    page.browser.size(1000, 700)
    page.browser.until("innerHeight === 700")
    page.browser.value("document.activeElement.blur()")
    page.browser.size(1000, 420)
    try:
        page.browser.until(f"!{is_open}")
    except Lost:
        yield "the form stays open as the window gets low"


def draws_arrows(page: Page, scripts: List[Played]) -> Iterator[str]:
    """Each arrow's shaft and head are seen, with colours of the reader's own, too: without them it is another picture."""
    rows = next(it for it in scripts if it.name == "rows")
    page.open(fragment(rows.script))
    kinds = page.browser.value("[...new Set([...document.querySelectorAll('.arrow')].map((it) => it.className))]")
    if len(kinds) < 6:
        yield f"only {kinds}"
    for is_forced in (False, True):
        page.browser.size(1360, 860, is_forced=is_forced)
        for kind in kinds:
            shaft = f"document.querySelector({json.dumps('.' + '.'.join(kind.split(' ')) + ' .shaft')})"
            page.browser.value(f"{shaft}.scrollIntoView({{ block: 'center' }})")
            box = page.browser.value(f"(({{ left, right, top }}) => ({{ left, right, top }}))({shaft}.getBoundingClientRect())")
            middle = {"x": box["left"] + 20, "y": box["top"] - 2, "width": box["right"] - box["left"] - 40, "height": 6}
            end = box["left"] - 2 if "leftwards" in kind else box["right"] - 12
            head = {"x": end, "y": box["top"] - 8, "width": 14, "height": 18}
            for name, clip in (("shaft", middle), ("head", head)):
                seen = page.browser.shot(clip)
                page.browser.value(f"{shaft}.style.visibility = 'hidden'")
                if page.browser.shot(clip) == seen:
                    yield f"the {name} of {kind} is not seen{' with forced colours' if is_forced else ''}"
                page.browser.value(f"{shaft}.style.visibility = ''")


TESTS = {
    "opens": opens,
    "says what plays": says_what_plays,
    "shows all": shows_all,
    "has a menu": has_menu,
    "marks faults": marks_faults,
    "explains faults": explains_faults,
    "explains whole": explains_whole,
    "leaves help": leaves_help,
    "puts examples": puts_examples,
    "loses a frame": loses_a_frame,
    "makes no markup": makes_no_markup,
    "steps": steps,
    "leads": leads,
    "has fields": has_fields,
    "links": links,
    "is awake": is_awake,
    "can be stopped": can_be_stopped,
    "fits": fits,
    "is read when low": is_read_when_low,
    "draws arrows": draws_arrows,
}


STORED = (1320, 680, False, False)  # of docs/pictures
VIEWS = {
    "1024x600": (1024, 600, False, False),
    "forced": (1360, 860, False, False, True),
    "low": (844, 390, False, True),
    "light": (1360, 860, False, False),
    "dark": (1360, 860, True, False),
    "phone": (390, 1400, False, True),
    "phone-dark": (390, 1400, True, True),
}


def picture(page: Page, view: Tuple, path: str) -> Iterator[str]:
    """A picture of the script in which a frame is lost, with the row of REJ chosen."""
    page.open()
    page.browser.size(*view)
    page.browser.value("document.getElementById('card').open = false")
    page.choose(LOST)
    rej = "[...document.querySelectorAll('#ladder [data-line]')].find((it) => it.textContent.includes(' rej '))"
    page.browser.value(f"{rej}.click()")
    time.sleep(0.4)
    page.browser.picture(path)
    yield from ()


def guarded(test, *words) -> Iterator[str]:
    try:
        yield from test(*words)
    except Lost as lost:
        yield str(lost)


def tests(browser: Browser, path: str, scripts: List[Played], folder: str, file: str) -> Iterator[Tuple[str, Iterator[str]]]:
    page = Page(browser, path)
    for name, test in TESTS.items():
        yield name, guarded(test, page, scripts)
    if folder:
        os.makedirs(folder, exist_ok=True)
    for name, view in VIEWS.items() if folder else ():
        yield f"picture {name}", guarded(picture, page, view, f"{folder}/page-{name}.png")
    if file:
        yield "picture", guarded(picture, page, STORED, file)
