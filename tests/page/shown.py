"""What the page shows, told in the page's own words, and how that differs from what the tools make of a script."""
import base64
import json
import os
from typing import Iterator, List, Tuple

from browser import Browser
from vithrynel.story import BESIDE, COMMENT, FAULT, PAUSE
from wanted import Played

MOST_DIGITS = 120  # of information that is shown whole

# What the page shows, in its own words.
LOOK = """
window.look = () => ({
  ladders: [...document.querySelectorAll("#ladder .names")].map((it) => ({
    title: it.querySelector("h2").textContent,
    names: [...it.querySelectorAll(".bars b")].map((name) => name.textContent),
    rows: [...it.nextElementSibling.querySelectorAll("[data-line]")].map((row) => [
      row.className.split(" ").find((name) => name.startsWith("kind-")).slice(5),
      row.querySelector(".words, .pass, .comment, .fault")?.textContent ?? "",
      row.querySelector(".meaning")?.textContent ?? "",
      row.querySelector(".beside")?.textContent ?? "",
      Number(row.dataset.line),
    ]),
  })),
  said: [...document.querySelectorAll("#transcript-lines .said")].map((it) => it.textContent),
  verdict: document.getElementById("verdict").textContent,
  faulty: [...document.querySelectorAll("#gutter .is-faulty")].map((it) => it.textContent),
  band: document.querySelector(".band.fault")?.textContent ?? "",
  text: document.getElementById("text").value,
  howFar: document.getElementById("how-far").textContent,
});
window.boxOf = (selector) => {
  const { left, top, right, bottom, width, height } = document.querySelector(selector).getBoundingClientRect();
  return { left, top, right, bottom, width, height };
};
window.isPlayed = () => document.body.dataset.state === "played";
window.played = async () => {
  for (let at = 0; !isPlayed(); at += 1) await new Promise((go) => setTimeout(go, at < 50 ? 2 : 20));
};
window.shown = async (fragment) => {
  if (location.hash !== fragment) {
    const turned = new Promise((go) => addEventListener("hashchange", go, { once: true }));
    location.hash = fragment;
    await turned;
  }
  await played();
  return look();
};
window.shownAll = async (fragments) => {
  const found = [];
  for (const it of fragments) found.push(await shown(it));
  return found;
};
window.caret = () => {
  const text = document.getElementById("text");
  return text.value.slice(0, text.selectionStart).split("\\n").length;
};
window.change = (name, value) => {
  const it = document.querySelector(`#fields [name="${name}"]`);
  it.value = value;
  it.dispatchEvent(new Event("change", { bubbles: true }));
};
window.type = async (script) => {
  const text = document.getElementById("text");
  text.focus();
  text.value = script;
  text.dispatchEvent(new Event("input"));
  await played();
};
"""


def fragment(script: bytes) -> str:
    return "#script=" + base64.urlsafe_b64encode(script).decode().rstrip("=")


def shortened(digits: str) -> str:
    return digits if len(digits) <= MOST_DIGITS else f"{digits[:MOST_DIGITS - 20]}… ({len(digits) // 2} octets)"


def drawn(row: List) -> List[str]:
    """A row as the page shows it: its kind, the words on its arrow, what they mean, and what stands beside it."""
    _, kind, head, info, meaning, beside = row
    if kind == PAUSE:
        return [kind, f"{head} pass", "", ""]
    if kind == BESIDE:
        return [kind, "", "", head]
    return [kind, head if kind in (COMMENT, FAULT) or not info else f"{head} {shortened(info)}", meaning, beside]


def differences(it: Played, got: dict) -> Iterator[str]:
    """How what the page shows of a script differs from what the tools make of it."""
    fault = [[FAULT, it.fault, "", ""]] if it.fault else []
    wanted = [(f"line {line}", [*map(drawn, rows), *fault]) for line, rows in it.rows.items()]
    found = [(ladder["title"], [row[:4] for row in ladder["rows"]]) for ladder in got["ladders"]]
    if found != wanted:
        pairs = [(one, two) for left, right in zip(found, wanted) for one, two in zip(left[1], right[1]) if one != two]
        yield f"ladder: {pairs[:1] or (found[:1], wanted[:1])}"[:600]
    user = "terminal" if it.is_terminal else "user"
    names = ["exchange", user, "layer 3"] if it.is_user else ["terminal", "exchange", "layer 3"]
    if any(ladder["names"] != names for ladder in got["ladders"]):
        yield f"names {got['ladders'][0]['names']}"
    if "".join(f"{said}\n" for said in got["said"]) != it.transcript:
        yield "another transcript"
    number = it.fault.split(":")[0].split(" ")[1] if it.fault else ""
    if (it.fault or "No fault.") not in got["verdict"] or (got["band"] != "") != bool(it.fault):
        yield f"verdict {got['verdict']!r}, {got['band']!r}, wanted {it.fault!r}"
    if int(number or 1) < 20 and got["faulty"] != [number] * bool(it.fault):
        yield f"marked {got['faulty']}, wanted {number!r}"


class Page:
    """The page, opened from its file."""

    def __init__(self, browser: Browser, path: str) -> None:
        self.browser = browser
        self.url = f"file://{os.path.abspath(path)}"

    def open(self, more: str = "", size: Tuple[int, int] = (1360, 860), is_phone: bool = False) -> None:
        self.browser.size(*size, is_phone=is_phone)
        self.browser.open("about:blank")
        self.browser.open(self.url + more)
        self.browser.until("document.body?.dataset.state === 'played'")
        self.browser.value(LOOK)

    def look(self) -> dict:
        self.browser.value("played()")
        return self.browser.value("look()")

    def choose(self, name: str) -> dict:
        script = "const menu = document.getElementById('menu'); menu.value = %s; menu.dispatchEvent(new Event('change'));"
        self.browser.value(f"{{{script % json.dumps(name)}}}")
        return self.look()

    def type(self, script: str) -> dict:
        self.browser.value(f"type({json.dumps(script)})", 120)
        return self.look()

    def click(self, selector: str) -> None:
        self.browser.value(f"document.querySelector({json.dumps(selector)}).click()")
