"""`lapdsim run` over a pipe: a line goes in, and its answer comes out before the next."""
import os
import subprocess
from typing import List, Optional

ROOT = os.path.dirname(os.path.dirname(os.path.dirname(os.path.abspath(__file__))))
BUILT = os.path.join(ROOT, "crates", "lapdsim", "out", "lapdsim")
STORED = b"stored"
NO_PROGRAM = "there is no program {}: `rt run` in crates/lapdsim builds it, and so does `rt ci`"


class Fault(Exception):
    """Why a tool can't do its work, in words."""


class Program:
    """The program, which plays a script line by line."""

    def __init__(self, path: Optional[str] = None) -> None:
        path = path or BUILT
        if not os.access(path, os.X_OK) or os.path.isdir(path):
            raise Fault(NO_PROGRAM.format(os.path.relpath(path)))
        pipes = dict.fromkeys(("stdin", "stdout", "stderr"), subprocess.PIPE)
        self.running = subprocess.Popen([path, "run"], **pipes)
        self.numbers: List[int] = []  # of each line handed over, the number of the script's line that it is about
        self.has_card = False

    def __enter__(self) -> "Program":
        return self

    def __exit__(self, *_: object) -> None:
        self.running.kill()
        self.running.communicate()

    def ask(self, line: bytes, number: int) -> Optional[List[str]]:
        """Hands over a line. Returns its answer, line by line, or nothing where the program has ended.

        From the card line on `stored` is asked after it, whose answer is the last: it alone begins with that word, but
        where the line asks it itself.
        """
        skipped = line == b"" or line.startswith(b"#")
        self.has_card |= not skipped
        self.write([line, STORED] if self.has_card else [line], number)
        if not self.has_card:
            return []
        answer, wanted = [], 2 if line == STORED else 1
        while wanted:
            said = self.running.stdout.readline()
            if not said.endswith(b"\n"):
                return None
            answer.append(said.decode().rstrip("\n"))
            wanted -= said.startswith(STORED)
        return answer[:-1]

    def write(self, lines: List[bytes], number: int) -> None:
        """Hands over lines that are about one line of the script."""
        self.numbers += [number] * len(lines)
        try:
            self.running.stdin.write(b"".join(it + b"\n" for it in lines))
            self.running.stdin.flush()
        except BrokenPipeError:
            pass  # the program has ended, and the answer that doesn't come tells it

    def end(self) -> "Ended":
        """Ends the script. Returns the program's status and its fault line, with the number of the script's own line."""
        try:
            self.running.stdin.close()
        except BrokenPipeError:
            pass
        self.running.stdin = None
        _, said = self.running.communicate()
        fault = said.decode(errors="replace").strip()
        head, colon, kind = fault.partition(": ")
        at = head[len("line ") :]
        if colon and head.startswith("line ") and at.isdigit() and int(at) <= len(self.numbers):
            fault = f"line {self.numbers[int(at) - 1]}: {kind}"
        return Ended(self.running.returncode, fault)


class Ended:
    """How a run of the program ended."""

    def __init__(self, status: int, fault: str) -> None:
        self.status = status
        self.fault = fault or (f"the program ended with status {status}" if status else "")
