// What comes of a script: its ladders, its transcript, and how far the play is.

import { Rows, element } from "./lists.mjs";
import { headDrawn, rowDrawer } from "./ladder.mjs";
import { NETWORK_SIDE, TERMINAL_SIDE, USER_SIDE } from "./story.mjs";
import { save } from "./links.mjs";

const SHOW_AFTER = 250; // milliseconds before a play that goes on is told of
const TABS = ["ladder", "transcript", "help"];

/** The right half of the page. */
export class Shown {
  constructor(byId, onChosen) {
    this.byId = byId;
    this.onChosen = onChosen;
    this.lists = [];
    this.transcript = "";
    for (const name of TABS) byId(`tab-${name}`).addEventListener("click", () => this.open(name));
    byId("tab-ladder").parentElement.addEventListener("keydown", (event) => this.pressed(event));
  }

  open(name) {
    for (const it of TABS) {
      this.byId(it).hidden = it !== name;
      this.byId(`tab-${it}`).setAttribute("aria-selected", String(it === name));
      this.byId(`tab-${it}`).tabIndex = it === name ? 0 : -1;
    }
  }

  /** Help makes room for the ladder, once there is something new to see. */
  leaveHelp() {
    if (!this.byId("help").hidden) this.open("ladder");
  }

  pressed({ key, target }) {
    const at = TABS.indexOf(target.id.slice("tab-".length));
    const to = { ArrowRight: at + 1, ArrowLeft: at - 1 }[key];
    if (at < 0 || !TABS[to]) return;
    this.open(TABS[to]);
    this.byId(`tab-${TABS[to]}`).focus();
  }

  /** A play begins. What is shown stays until there is more. */
  begin() {
    document.body.dataset.state = "playing";
    this.isFresh = true;
    this.isDone = false;
    clearTimeout(this.timer);
    this.timer = setTimeout(() => (this.byId("progress").hidden = false), SHOW_AFTER);
  }

  toTop() {
    for (const name of TABS) this.byId(name).scrollTo(0, 0);
  }

  told(message, name) {
    if (message.progress) this.showProgress(message);
    else if (message.failed !== undefined) this.ended();
    else if (message.ladder !== undefined) this.addLadder(message, name);
    else if (message.more) this.lists.at(-1).add(message.more);
    else if (message.said) this.addSaid(message.said);
    else if (message.ended) this.end(message.ended);
  }

  showProgress({ progress, part }) {
    this.byId("progress-words").textContent = part ? `${progress}: ${Math.floor(100 * part)} %` : progress;
    const bar = this.byId("progress").querySelector("progress");
    if (part) bar.value = part;
    else bar.removeAttribute("value");
  }

  /** The first news of a play takes away what was shown. */
  renew() {
    if (!this.isFresh) return;
    this.isFresh = false;
    for (const it of [...this.lists, this.said]) it?.end();
    this.lists = [];
    this.said = null;
    this.ladder = element("div", "ladders");
  }

  addLadder({ ladder, isUser, isTerminal, capture }, name) {
    this.renew();
    const user = isTerminal ? TERMINAL_SIDE : USER_SIDE;
    const names = isUser ? user : NETWORK_SIDE;
    const button = element("button", "", "Capture for Wireshark");
    button.type = "button";
    button.addEventListener("click", () => save(`${name}-line-${ladder}.pcap`, capture, "application/vnd.tcpdump.pcap"));
    const rows = element("div", "rows");
    this.ladder.append(headDrawn(ladder, names, button), rows);
    const list = new Rows(rows, `Ladder of line ${ladder}`, rowDrawer(names), this.onChosen);
    list.whenDrawn = () => this.settled();
    this.lists.push(list);
    if (this.lists.length === 1) this.byId("ladder").replaceChildren(this.ladder);
  }

  addSaid(lines) {
    this.renew();
    if (!this.said) {
      const place = element("div", "rows");
      this.said = new Rows(place, "Transcript", ({ text }) => element("div", "said", text), this.onChosen);
      this.said.whenDrawn = () => this.settled();
      this.byId("transcript-lines").replaceChildren(place);
    }
    this.said.add(lines);
  }

  end({ status, transcript }) {
    this.transcript = transcript;
    const lines = transcript ? transcript.split("\n").length - 1 : 0;
    this.byId("transcript-words").textContent = `${lines} lines, as lapdsim run writes them; its exit status is ${status}`;
    this.ended();
  }

  stopped() {
    for (const it of this.lists) it.end();
    this.ended();
  }

  ended() {
    clearTimeout(this.timer);
    this.byId("progress").hidden = true;
    this.isDone = true;
    this.settled();
  }

  /** Whether all that was told is drawn. */
  settled() {
    if (!this.isDone || [...this.lists, this.said].some((it) => it?.pending)) return;
    if (this.marked) this.mark(this.marked.line, this.marked.isToShow);
    this.marked = null;
    document.body.dataset.state = "played";
  }

  /** Marks what a line of the script caused, and brings it into view. */
  mark(line, isToShow) {
    this.marked = { line, isToShow };
    const found = [...this.lists, this.said].map((it) => it?.mark(line)).filter(Boolean);
    if (!isToShow) return;
    for (const it of found) {
      const panel = it.closest('[role="tabpanel"]');
      if (!panel.hidden && panel.scrollHeight > panel.clientHeight) bring(it, panel);
    }
  }
}

/** Brings a row into view in its panel, and scrolls nothing else. */
function bring(item, panel) {
  const [row, room] = [item.getBoundingClientRect(), panel.getBoundingClientRect()];
  const above = 70; // what stands at the top of a panel
  if (row.top < room.top + above || row.bottom > room.bottom) {
    panel.scrollBy(0, row.top - room.top - room.height / 3);
  }
}
