// The page: a script on the left, what comes of it on the right.

import { Editor, beginOf, lineOf } from "./editor.mjs";
import { Card, USUAL, cardLineIn } from "./card.mjs";
import { Player } from "./player.mjs";
import { Shown } from "./shown.mjs";
import { element } from "./lists.mjs";
import { MOST_OCTETS, fragmentOf, save, scriptIn } from "./links.mjs";

const PATIENCE = 120; // milliseconds from a key to a play
const NARROW = "(max-width: 760px)"; // as page.css has it
const LOW = "(max-height: 640px)"; // as page.css has it

const byId = (id) => document.getElementById(id);
const data = JSON.parse(byId("data").textContent);

/** Octets of base64. */
const octetsOfText = (text) => Uint8Array.from(atob(text), (it) => it.charCodeAt(0));

/** What a kind of fault means, as Help has it, after a colon. */
function explanationOf(kind) {
  const found = [...byId("faults").rows].find((it) => it.cells[0].textContent === kind);
  return found ? `: ${found.cells[1].textContent}` : "";
}

/** The page as a whole. */
class Page {
  constructor(module) {
    this.player = new Player(data.worker, module);
    this.editor = new Editor(byId("text"), byId("gutter"), byId("bands"));
    this.card = new Card(byId("fields"), byId("card-words"), (text) => this.cardChanged(text));
    this.shown = new Shown(byId, (line) => this.lead(line));
    this.upTo = null; // the last line that is played; null: all are
    this.name = "script";
    byId("card").open = !matchMedia(`${NARROW}, ${LOW}`).matches;
    this.fillMenu();
    this.listen();
  }

  fillMenu() {
    for (const { subject, scripts } of data.subjects) {
      const group = document.createElement("optgroup");
      group.label = subject;
      for (const { name, title } of scripts) group.append(new Option(title, name));
      byId("menu").append(group);
    }
    byId("menu").append(new Option("a script of your own", ""));
  }

  listen() {
    byId("menu").addEventListener("change", ({ target }) => this.open(target.value));
    byId("text").addEventListener("input", () => this.edited());
    document.addEventListener("selectionchange", () => this.caretMoved());
    byId("gutter").addEventListener("click", ({ offsetY, target, currentTarget }) =>
      this.playTo(this.editor.lineAt(target === currentTarget ? offsetY : target.offsetTop + 1)));
    const keys = { F7: () => this.step(-1), F8: () => this.step(1), F9: () => this.playTo(null) };
    byId("back").addEventListener("click", keys.F7);
    byId("step").addEventListener("click", keys.F8);
    byId("all").addEventListener("click", keys.F9);
    byId("here").addEventListener("click", () => this.playTo(this.editor.line()));
    byId("stop").addEventListener("click", () => this.stop());
    byId("link").addEventListener("click", () => this.copyLink());
    byId("save").addEventListener("click", () => save(`${this.name}.transcript`, this.shown.transcript, "text/plain"));
    byId("help").addEventListener("click", ({ target }) => target.closest("table button") && this.insert(target.textContent));
    window.addEventListener("hashchange", () => this.fromAddress());
    matchMedia(LOW).addEventListener("change", ({ matches }) => matches && this.closeCard());
    document.addEventListener("keydown", (event) => {
      const act = event.key === "Enter" && event.ctrlKey ? () => this.playTo(this.editor.line()) : keys[event.key];
      if (!act) return;
      event.preventDefault();
      act();
    });
  }

  /** The script of the address; else the first of the menu. */
  begin() {
    if (!this.fromAddress()) this.open(data.subjects[0].scripts[0].name);
  }

  fromAddress() {
    const script = scriptIn(location.hash);
    if (script === null || script === this.editor.value) return script !== null;
    this.name = "script";
    byId("menu").value = "";
    this.put(script);
    return true;
  }

  open(name) {
    const found = data.subjects.flatMap((it) => it.scripts).find((it) => it.name === name);
    if (location.hash) history.replaceState(null, "", location.href.split("#")[0]);
    this.name = found ? name.split("/").at(-1) : "script";
    byId("menu").value = name;
    this.put(found ? found.text : `${USUAL}\n`);
  }

  put(script) {
    this.shown.leaveHelp();
    this.upTo = null;
    this.editor.marks.here = null;
    this.editor.value = script;
    this.shown.toTop();
    this.play();
  }

  edited() {
    byId("menu").value = "";
    this.shown.leaveHelp();
    this.editor.draw();
    clearTimeout(this.waiting);
    document.body.dataset.state = "playing";
    this.waiting = setTimeout(() => this.play(), PATIENCE);
  }

  play() {
    clearTimeout(this.waiting);
    const text = this.editor.value;
    if (this.upTo !== null && this.upTo >= this.editor.count()) this.upTo = null;
    const script = this.upTo === null ? text : text.slice(0, beginOf(text, this.upTo + 1));
    this.card.show(cardLineIn(text));
    this.shown.begin();
    this.editor.mark({ end: this.upTo });
    this.player.play(new TextEncoder().encode(script), (message) => this.told(message));
  }

  told(message) {
    this.shown.told(message, this.name);
    if (message.progress) {
      if (!byId("progress").hidden) this.judge("It is being played.", false, null);
    } else if (message.failed !== undefined) {
      this.judge(`Not played: ${message.failed}`, true, null);
      this.tellHowFar("not played");
    } else if (message.ended) {
      this.ended(message.ended);
    }
  }

  ended({ status, fault, line, clock }) {
    if (status) {
      const words = fault.split(": ").slice(1).join(": ");
      this.judge(fault, true, { line, words });
      byId("verdict").append(element("span", "meaning", explanationOf(words)));
      this.tellHowFar(`played up to the fault in line ${line}`);
    } else {
      this.judge(`No fault. The script's clock stands at ${clock} ms.`, false, null);
      this.tellHowFar(this.upTo === null ? "all is played" : `played up to line ${this.upTo}`);
    }
    this.shown.mark(this.upTo ?? this.editor.marks.here, this.upTo !== null);
  }

  judge(words, isFaulty, fault) {
    byId("verdict").textContent = words;
    byId("verdict").classList.toggle("is-faulty", isFaulty);
    this.editor.mark({ fault });
  }

  tellHowFar(words) {
    byId("how-far").textContent = words;
  }

  /** Where the window gets low, the form would take all of it. One that is being filled in stays. */
  closeCard() {
    if (!byId("card").contains(document.activeElement)) byId("card").open = false;
  }

  stop() {
    this.player.stop();
    this.shown.stopped();
    this.judge("Stopped: what the ladder shows is not all.", true, null);
    this.tellHowFar("stopped");
  }

  /** Goes on, or back, by a line that is not skipped. */
  step(by) {
    const lines = this.editor.value.split("\n");
    const isPlayed = (line) => lines[line - 1] !== "" && !lines[line - 1].startsWith("#");
    let line = this.upTo ?? (by > 0 ? 0 : lines.length + 1);
    if (this.upTo === null && by < 0) for (line -= 1; line > 0 && !isPlayed(line); line -= 1);
    for (line += by; line > 0 && line <= lines.length && !isPlayed(line); line += by);
    if (line > 0) this.playTo(line <= lines.length ? line : null);
  }

  playTo(line) {
    this.shown.leaveHelp();
    this.upTo = line;
    if (line !== null) this.editor.show(line, false);
    this.play();
  }

  /** A row leads to its line; by touch without the keyboard that a caret brings. */
  lead(line) {
    this.editor.show(line, !matchMedia("(pointer: coarse)").matches);
    this.shown.mark(line, false);
    this.editor.mark({ here: line });
    if (matchMedia(NARROW).matches) byId("editor").scrollIntoView({ block: "nearest" });
  }

  caretMoved() {
    if (document.activeElement !== byId("text")) return;
    const line = this.editor.line();
    if (line === this.editor.marks.here) return;
    this.editor.mark({ here: line });
    this.shown.mark(line, true);
  }

  cardChanged(text) {
    const found = cardLineIn(this.editor.value);
    const focused = document.activeElement;
    if (found) this.editor.replace(found.begin, found.end, text);
    else this.editor.replace(0, 0, `${text}\n`);
    focused.focus();
  }

  /** Puts a line after that of the caret, and shows what comes of it. */
  insert(text) {
    const { value } = this.editor;
    const found = value.indexOf("\n", byId("text").selectionEnd);
    const at = found < 0 ? value.length : found + 1;
    const isOpen = at > 0 && value[at - 1] !== "\n";
    this.editor.replace(at, at, `${isOpen ? "\n" : ""}${text}\n`);
    this.editor.show(lineOf(value, at) + Number(isOpen), true);
    this.shown.open("ladder");
    if (matchMedia(NARROW).matches) byId("editor").scrollIntoView({ block: "nearest" });
  }

  copyLink() {
    const octets = new TextEncoder().encode(this.editor.value);
    const tell = (words) => {
      byId("link").textContent = words;
      setTimeout(() => (byId("link").textContent = "Copy a link"), 2500);
    };
    if (octets.length > MOST_OCTETS) {
      tell("Too long for a link");
      return;
    }
    history.replaceState(null, "", fragmentOf(octets));
    const copied = navigator.clipboard?.writeText(location.href) ?? Promise.reject();
    copied.then(
      () => tell("Copied"),
      () => tell("It is in the address"),
    );
  }
}

WebAssembly.compile(octetsOfText(data.module)).then(
  (module) => new Page(module).begin(),
  (error) => {
    byId("verdict").textContent = `This browser can't run the program: ${error.message}`;
    document.body.dataset.state = "failed";
  },
);
