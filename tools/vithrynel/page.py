"""One HTML file of the sources in web/: the modules of the page and of its worker, each joined to one script, with the
program and the scripts of the menu as data."""
import base64
import functools
import hashlib
import html
import json
import os
import re
import sys
from typing import Dict, Iterator, List, Tuple

from .program import ROOT, Fault
from .svg import MONO, SANS, SHADES

sys.path.insert(0, os.path.join(ROOT, "tests", "scripts"))
from worked import content, worked

WEB = os.path.join(ROOT, "web")
IMPORT = re.compile(r'^import \{[^}]*\} from "\./(\w+\.mjs)";\n', re.M)
NAMED = re.compile(r"^(?:export )?(?:async )?(?:function\*?|class|const|let) (\w+)", re.M)
EXPORT = re.compile(r"^export ", re.M)
FAULTS = re.compile(r"^## Faults of a script\n.*?^\|---\|---\|\n((?:\|[^\n]*\n)+)", re.M | re.S)  # of docs/FORMAT.md
FIRST = "lapdsim"  # the name of the script that README.md begins with
SPELLINGS = "language"  # the group of scripts that show how lines may be spelled
MOST_OCTETS = 600_000


def text_of(path: str) -> str:
    with open(path, encoding="utf-8") as it:
        return it.read()


def source(name: str) -> str:
    return text_of(os.path.join(WEB, name))


def below(name: str, found: List[str]) -> List[str]:
    """A module and those that it imports, each after those that it imports itself."""
    for it in IMPORT.findall(source(name)):
        if it not in found:
            below(it, found)
    found.append(name)
    return found


def joined(name: str) -> str:
    """A module and those that it imports as one script. They share one scope, so no two may have a name in common."""
    owners: Dict[str, str] = {}
    parts = []
    for module in below(name, []):
        text = source(module)
        for it in NAMED.findall(text):
            if it in owners:
                raise Fault(f"web/{module} and web/{owners[it]} both have a name {it}")
            owners[it] = module
        parts.append(EXPORT.sub("", IMPORT.sub("", text)).strip())
    body = "\n\n".join(parts)
    return f'"use strict";\n(() => {{\n{body}\n}})();\n'


def colours(scheme: int) -> str:
    return "".join(f"--{name}:{shade[scheme]};" for name, shade in SHADES.items())


def style() -> str:
    fonts = f"--sans:{SANS};--mono:{MONO};"
    dark = f"@media (prefers-color-scheme:dark){{:root{{{colours(1)}}}}}"
    return f":root{{{fonts}{colours(0)}}}\n{dark}\n{source('page.css')}"


@functools.lru_cache(None)
def texts() -> Dict[str, bytes]:
    """The scripts without a fault, by name."""
    return {FIRST: content(f"{ROOT}/crates/lapdsim/stdin"), **{name: it.text for name, it in worked().items() if not it.fault}}


def script_text(name: str) -> bytes:
    if name not in texts():
        raise Fault(f"web/menu.txt: there is no script {name}")
    return texts()[name]


def chosen() -> Iterator[Tuple[str, List[Tuple[str, str]]]]:
    """The subjects of web/menu.txt, each with its scripts and their titles."""
    for part in source("menu.txt").split("\n== ")[1:]:
        subject, *rows = part.strip().split("\n")
        yield subject, [(it.split(" ", 1)[0], it.split(" ", 1)[1]) for it in rows if it]


def others(named: List[str]) -> Iterator[Tuple[str, List[Tuple[str, str]]]]:
    """The other scripts, by group. Those that a text field would change are left out."""
    groups: Dict[str, List[Tuple[str, str]]] = {}
    for name, text in texts().items():
        group, _, own = name.partition("/")
        if name not in named and group not in (FIRST, SPELLINGS) and is_plain(text):
            groups.setdefault(group, []).append((name, own.replace("-", " ")))
    for group in sorted(groups):
        yield f"More: {group}", groups[group]


def is_plain(octets: bytes) -> bool:
    try:
        return b"\r" not in octets and b"\0" not in octets and bool(octets.decode())
    except UnicodeDecodeError:
        return False


def subjects() -> List[dict]:
    first = list(chosen())
    named = [name for _, rows in first for name, _ in rows]
    return [
        {
            "subject": subject,
            "scripts": [{"name": name, "title": title, "text": script_text(name).decode()} for name, title in rows],
        }
        for subject, rows in [*first, *others(named)]
    ]


def cell(words: str) -> str:
    """A cell of a table of Markdown as one of HTML."""
    return "<td>" + re.sub(r"`([^`]+)`", r"<code>\1</code>", html.escape(words, quote=False)) + "</td>"


def faults() -> str:
    """The kinds of faults and what each means, as docs/FORMAT.md has them: rows of a table."""
    found = FAULTS.search(text_of(f"{ROOT}/docs/FORMAT.md"))
    if not found:
        raise Fault("docs/FORMAT.md: there is no table of faults")
    rows = re.findall(r"^\|(.+?)\|(.+)\|$", found[1], re.M)
    return "".join(f"<tr>{cell(kind)}{cell(where)}</tr>\n" for kind, where in rows)


def sum_of(text: str) -> str:
    return "'sha256-" + base64.b64encode(hashlib.sha256(text.encode()).digest()).decode() + "'"


def version() -> str:
    number = int(re.search(r"#define LAPD_VERSION (\d+)", text_of(f"{ROOT}/include/lapd.h"))[1])
    return f"{number // 1000}.{number % 1000}"


def page(module: bytes) -> str:
    """The page with this module of the program. Its policy lets it run its own script, and load nothing."""
    script, css = joined("main.mjs"), style()
    data = {"module": base64.b64encode(module).decode(), "worker": joined("worker.mjs"), "subjects": subjects()}
    policy = [
        "default-src 'none'",
        f"script-src {sum_of(script)} 'wasm-unsafe-eval'",
        "worker-src blob:",
        f"style-src {sum_of(css)}",
        "base-uri 'none'",
        "form-action 'none'",
    ]
    parts = {
        "POLICY": "; ".join(policy),
        "STYLE": css,
        "VERSION": version(),
        "HELP": source("help.html").replace("@FAULTS@", faults()),
        "DATA": json.dumps(data, separators=(",", ":")).replace("<", "\\u003c"),
        "PAGE": script,
    }
    if "</script" in script or "</style" in css:
        raise Fault("web/: a script or a style ends its own element")
    whole = re.sub(r"@([A-Z]+)@", lambda it: parts[it[1]], source("page.html"))
    octets = len(whole.encode())
    if octets >= MOST_OCTETS:
        raise Fault(f"the page has {octets} octets: {MOST_OCTETS} are too many")
    return whole
