"""How much a page's script does in one turn of its event loop. It is counted, so a slow machine changes nothing."""
from contextlib import contextmanager
from typing import Dict, Iterator

from browser import Browser

# Of one turn, at most: elements that are made, rows that the worker tells, places and sizes that are asked for (each may lay the
# page out anew), and runs of the program, which has its own thread. Of signs of a text that are read, at most so many for each
# of the script's.
MOST = {"elements": 6000, "rows": 2500, "looks": 60, "programs": 0}
MOST_READ = 8

# Stands before the page's own script. A turn is what the browser calls for one event, one frame, one timer or one message. What
# a page does in a call that is not seen here counts for the turn before it.
COUNTED = """(() => {
    const KINDS = ["elements", "rows", "signs", "looks", "programs"];
    const none = () => Object.fromEntries(KINDS.map((it) => [it, 0]));
    let turn = none(), most = none(), cause = null, depth = 0;
    const count = (kind, many) => {
        turn[kind] += many;
        most[kind] = Math.max(most[kind], turn[kind]);
    };
    window.turns = { begin: () => { turn = none(); most = none(); }, most: () => most };

    const rowsOf = (data) => Object.values(data ?? {}).reduce((sum, it) => sum + (Array.isArray(it) ? it.length : 0), 0);
    const called = (act) => typeof act !== "function" ? act : function (...words) {
        if (depth === 0 && (words.length === 0 || words[0] !== cause)) {
            turn = none();
            cause = words[0];
            if (cause instanceof MessageEvent) count("rows", rowsOf(cause.data));
        }
        depth += 1;
        try {
            return act.apply(this, words);
        } finally {
            depth -= 1;
        }
    };
    for (const [owner, name, at] of [[EventTarget.prototype, "addEventListener", 1], [window, "requestAnimationFrame", 0],
                                     [window, "setTimeout", 0], [window, "setInterval", 0]]) {
        const own = owner[name];
        owner[name] = function (...words) {
            return own.apply(this, words.map((it, place) => place === at ? called(it) : it));
        };
    }
    const { set: hears } = Object.getOwnPropertyDescriptor(Worker.prototype, "onmessage");
    Object.defineProperty(Worker.prototype, "onmessage", { set(act) { hears.call(this, called(act)); } });

    const method = (owner, name, kind, manyOf = () => 1) => {
        const own = owner[name];
        owner[name] = function (...words) {
            const found = own.apply(this, words);
            count(kind, manyOf(this, words, found));
            return found;
        };
    };
    const property = (owner, name, kind, manyOf = () => 1) => {
        const own = Object.getOwnPropertyDescriptor(owner, name);
        Object.defineProperty(owner, name, { ...own, get() {
            const found = own.get.call(this);
            count(kind, manyOf(found));
            return found;
        } });
    };
    method(Document.prototype, "createElement", "elements");
    method(Node.prototype, "cloneNode", "elements");
    method(TextEncoder.prototype, "encode", "signs", (_, [text]) => text.length);
    method(String.prototype, "split", "signs", (text) => text.length);
    method(String.prototype, "indexOf", "signs", (text, [, from], found) => (found < 0 ? text.length : found) - (from ?? 0) + 1);
    property(HTMLTextAreaElement.prototype, "value", "signs", (text) => text.length);
    method(Element.prototype, "getBoundingClientRect", "looks");
    method(window, "getComputedStyle", "looks");
    for (const it of ["clientHeight", "clientWidth", "scrollHeight", "scrollWidth", "scrollTop"])
        property(Element.prototype, it, "looks");
    for (const it of ["offsetHeight", "offsetWidth", "offsetTop"]) property(HTMLElement.prototype, it, "looks");
    const started = { construct: (...words) => (count("programs", 1), Reflect.construct(...words)) };
    WebAssembly.Instance = new Proxy(WebAssembly.Instance, started);
    method(WebAssembly, "instantiate", "programs");
})();"""


@contextmanager
def counted(browser: Browser) -> Iterator[None]:
    """Pages that are opened meanwhile count what they do."""
    added = browser.ask("Page.addScriptToEvaluateOnNewDocument", source=COUNTED)["identifier"]
    try:
        yield
    finally:
        browser.ask("Page.removeScriptToEvaluateOnNewDocument", identifier=added)


def too_much(most: Dict[str, int], script: str) -> Iterator[str]:
    """What is more than a turn may have, where a script is shown."""
    for kind, allowed in {**MOST, "signs": MOST_READ * len(script)}.items():
        if most[kind] > allowed:
            yield f"{most[kind]} {kind} in one turn, where {allowed} are allowed"
