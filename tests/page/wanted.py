"""What the tools make of a script, over the program: what the page has to show."""
import base64
import subprocess

from vithrynel import pcap
from vithrynel.play import Play
from vithrynel.story import COMMENT, PAUSE, stories

LATER = COMMENT, PAUSE


def content(path):
    with open(path, "rb") as it:
        return it.read()


class Played:
    """What the tools make of a script, over the program."""

    def __init__(self, name, path, program):
        self.name, self.path = name, path
        self.script = content(path)
        play = Play(self.script, program)
        steps = list(play.steps())
        told = stories(steps)
        self.rows = {line: [list(it) for it in rows] for line, rows in told.items()}
        self.captures = {it: base64.b64encode(pcap.written(pcap.packets(steps, it), play.is_user)).decode() for it in told}
        self.is_user, self.is_terminal, self.clock = play.is_user, play.is_terminal, play.clock
        ran = subprocess.run([program, "run"], input=self.script, capture_output=True, timeout=60)
        self.transcript, self.fault, self.status = ran.stdout.decode(), ran.stderr.decode().strip(), ran.returncode
        self.lines = self.script.count(b"\n") + 1

    def is_text(self):
        """Whether a text field keeps it as it is."""
        try:
            return b"\r" not in self.script and b"\0" not in self.script and self.script.decode() is not None
        except UnicodeDecodeError:
            return False

    def differences(self, got):
        """How what web/ makes of it differs."""
        wanted = {"status": self.status, "fault": self.fault, "transcript": self.transcript, "told": self.transcript,
                  "isUser": self.is_user, "isTerminal": self.is_terminal, "clock": self.clock}
        for name, it in wanted.items():
            if got[name] != it:
                yield f"{name}: {str(got[name])[:200]!r}, wanted {str(it)[:200]!r}"
        if [it["line"] for it in got["ladders"]] != list(self.rows):
            yield f"lines {[it['line'] for it in got['ladders']]}, wanted {list(self.rows)}"
            return
        for it in got["ladders"]:
            rows = self.rows[it["line"]]
            if it["rows"] != rows:
                pairs = enumerate(zip(it["rows"], rows))
                at = next((at for at, pair in pairs if pair[0] != pair[1]), min(len(rows), len(it["rows"])))
                yield f"line {it['line']}, row {at}: {it['rows'][at:at + 1]}, wanted {rows[at:at + 1]}"
            if it["capture"] != self.captures[it["line"]]:
                yield f"line {it['line']}: another capture"
            if not all(isinstance(cause, int) and 1 <= cause <= self.lines for cause in it["causes"]):
                yield f"line {it['line']}: a row with no line of the script"
                return
        yield from self.wrong_causes(got)

    def wrong_causes(self, got):
        """Whether the beginnings of the script have those rows that their lines cause, on lines of the card of which they
        speak. Pauses show once more comes, and a comment may be about what comes."""
        for begun in got["beginnings"]:
            shown = {it["line"]: [row for row in it["rows"] if row[1] not in LATER] for it in begun["ladders"]}
            for it in got["ladders"]:
                caused = [row for row, cause in zip(it["rows"], it["causes"]) if cause <= begun["last"] and row[1] not in LATER]
                if shown.get(it["line"], caused) != caused:
                    yield f"line {it['line']}: the first {begun['last']} lines show other rows than they cause"
