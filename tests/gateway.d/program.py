"""The program that is tested: how it is built, configured and run; and the ends of its lines."""
import os
import re
import select
import shutil
import signal
import socket
import subprocess
import time
import urllib.error
import urllib.request

from checks import Missing

HERE = os.path.dirname(os.path.abspath(__file__))
ROOT = os.path.dirname(os.path.dirname(HERE))
STRICT = ["-std=c11", "-Wall", "-Wextra", "-Wpedantic", "-Werror", "-Wshadow", "-Wconversion", "-O2", "-g"]
SANITIZED = ["-fsanitize=address,undefined", "-fno-sanitize-recover=all", "-fno-omit-frame-pointer"]
CARD = [f"{ROOT}/dist/examples/{it}.c" for it in ("gateway", "trace", "pcap")]  # all of dist/, as the program is
LIBRARY = [f"{ROOT}/dist/lapd.S", f"{ROOT}/dist/lapd_malloc.c"]
HEADERS = {"libsctp-dev": "netinet/sctp.h", "libinih-dev": "ini.h", "libsystemd-dev": "systemd/sd-event.h",
           "libmicrohttpd-dev": "microhttpd.h"}
START_SECONDS, UP_SECONDS = 20, 90
transport = "unix"  # or "sctp": how servers join


def run(words, timeout=300, **more):
    return subprocess.run(words, capture_output=True, timeout=timeout, check=False, **more)


def built(words, what):
    said = run(words)
    if said.returncode != 0:
        raise SystemExit(f"gateway: {what} is not built:\n{(said.stdout + said.stderr).decode(errors='replace')[-4000:]}")


def need():
    """The packages without which the program can't be built."""
    for tool in ("cmake", "cc"):
        if not shutil.which(tool):
            raise Missing(f"there is no {tool} (tests/setup)")
    lack = [name for name, header in HEADERS.items() if not any(os.path.exists(f"{it}/{header}") for it in
            ("/usr/include", "/usr/local/include"))]
    if lack:
        raise Missing(f"{', '.join(lack)} not installed (tests/setup)")


def build(folder, sanitized=False):
    """The program, by CMake over gateway/ and dist/."""
    words = [f"-DCMAKE_C_FLAGS={' '.join(SANITIZED)}", "-DCMAKE_BUILD_TYPE=RelWithDebInfo"] if sanitized else []
    built(["cmake", "-S", f"{ROOT}/gateway", "-B", folder, "-DCMAKE_INSTALL_PREFIX=/usr", *words], "lapd-gateway")
    built(["cmake", "--build", folder, "-j", "2"], "lapd-gateway")
    return f"{folder}/lapd-gateway"


def compiled(folder, name, *more, library=True):
    """A program of this folder."""
    made = f"{folder}/{name}"
    words = [f"-I{ROOT}/dist", f"-I{ROOT}/dist/examples", f"-I{HERE}", "-o", made, f"{HERE}/{name}.c"]
    built(["cc", *STRICT, *words, *(CARD + LIBRARY) * library, *more], name)
    return made


def free_port():
    with socket.socket() as it:
        it.bind(("127.0.0.1", 0))
        return it.getsockname()[1]


# ---- Configurations ----------------------------------------------------------------------------------------------------

def section(head, **words):
    return "".join([f"[{head}]\n", *(f"{name.replace('_', '-')} = {value}\n" for name, value in words.items()), "\n"])


def group(name, first, count, kind, **words):
    return section(f"lines {name}", first=first, count=count, kind=kind, **words)


def server(name, first, last, **words):
    return section(f"server {name}", first=first, last=last, **words)


def own_address():
    """The address of servers' processes here, as a section of one has it."""
    return "127.0.0.1" if transport == "sctp" else "unix"


class Gateway:
    """A gateway in a folder of its own. It is ready after start(), as systemd would be told, and ends at the end of `with`."""

    def __init__(self, program, folder, *sections, words=(), state=True, environment=None, **more):
        os.makedirs(folder, exist_ok=True)
        self.program, self.folder, self.words, self.environment = program, os.path.abspath(folder), list(words), environment or {}
        self.port = free_port()
        self.iua, self.lines = f"{self.folder}/iua", f"{self.folder}/lines"
        self.head = {"unix": self.iua, "lines": self.lines, "metrics": self.port, **more}
        if transport == "sctp":
            self.port_of_iua = free_port()
            self.iua = f"127.0.0.1:{self.port_of_iua}"
            self.head = {"sctp": "127.0.0.1", "port": self.port_of_iua, **self.head}
        if state:
            self.head["state"] = f"{self.folder}/state"
        self.process, self.statuses, self.told = None, [], {}
        self.configure(*sections)

    def configure(self, *sections):
        self.file = f"{self.folder}/conf"
        with open(self.file, "w", encoding="ascii") as file:
            file.write(section("gateway", **self.head) + "".join(sections))

    def __enter__(self):
        self.start()
        return self

    def __exit__(self, *_):
        self.stop()

    @property
    def log(self):
        with open(f"{self.folder}/log", encoding="utf-8", errors="replace") as file:
            return file.read()

    def start(self, wait=True):
        self.notified = socket.socket(socket.AF_UNIX, socket.SOCK_DGRAM)
        path = f"{self.folder}/notify"
        if os.path.exists(path):
            os.remove(path)
        self.notified.bind(path)
        with open(f"{self.folder}/log", "a", encoding="utf-8") as log:
            self.process = subprocess.Popen([self.program, *self.words, self.file], stdin=subprocess.DEVNULL, stdout=log,
                                            stderr=log,
                                            cwd=self.folder, env={**os.environ, "NOTIFY_SOCKET": path, **self.environment_of(log)})
        if wait:
            self.wait_for("READY=1")

    def environment_of(self, log):
        """What more it has, among that what tells a program that its standard error is the journal."""
        found = dict(self.environment)
        if "JOURNAL_STREAM" in found:
            at = os.fstat(log.fileno())
            found["JOURNAL_STREAM"] = f"{at.st_dev}:{at.st_ino}"
        return found

    def wait_for(self, word, seconds=START_SECONDS):
        """What the program tells systemd."""
        end = time.monotonic() + seconds
        while True:
            self.notified.settimeout(0.1)
            try:
                if word in self.notified.recv(4096).decode():
                    return
            except socket.timeout:
                pass
            if self.process.poll() is not None:
                raise RuntimeError(f"lapd-gateway ended with {self.process.returncode}:\n{self.log[-3000:]}")
            if time.monotonic() > end:
                raise RuntimeError(f"lapd-gateway does not tell {word}:\n{self.log[-3000:]}")

    def stop(self, sign=signal.SIGTERM, seconds=10):
        """Ends it; its status."""
        if self.process is None:
            return None
        self.process.send_signal(sign)
        try:
            status = self.process.wait(seconds)
        except subprocess.TimeoutExpired:
            self.process.kill()
            self.process.wait()
            status = "killed, since it did not end"
        self.process = None
        self.notified.close()
        self.statuses.append(status)
        return status

    def fetched(self, path):
        """The status and the text of an answer over HTTP."""
        try:
            with urllib.request.urlopen(f"http://127.0.0.1:{self.port}{path}", timeout=5) as answer:
                return answer.status, answer.read().decode()
        except urllib.error.HTTPError as answer:
            return answer.code, answer.read().decode()

    def metrics(self):
        """Each value by its name without the prefix, and its labels: `link_state{line="0",sapi="0",tei="64"}`."""
        text = self.fetched("/metrics")[1]
        return {name: float(value) for name, value in re.findall(r"^lapd_gateway_(\S+(?:\{.*\})?) (\S+)$", text, re.M)}

    def metric(self, name):
        """One of them; 0 if it is not there. Of a thousand lines there are 100,000 values."""
        found = re.search(rf"^lapd_gateway_{re.escape(name)} (\S+)$", self.fetched("/metrics")[1], re.M)
        return float(found[1]) if found else 0

    def wait_until(self, is_good, seconds=5.0):
        """Whether metrics are so within these seconds."""
        end = time.monotonic() + seconds
        while not is_good(self.metrics()):
            if time.monotonic() > end:
                return False
            time.sleep(0.02)
        return True


class Ends:
    """Ends of lines, by ends.c."""

    def __init__(self, program, path, first, count, kind, **words):
        words = [program, path, str(first), str(count), kind, *(f"{name}={value}" for name, value in words.items())]
        self.process = subprocess.Popen(words, stdout=subprocess.PIPE, stderr=subprocess.STDOUT, text=True)

    def __enter__(self):
        self.up()
        return self

    def __exit__(self, *_):
        self.stop()

    def up(self):
        """Waits until all links are up."""
        if not select.select([self.process.stdout], [], [], UP_SECONDS)[0]:
            self.process.kill()
            raise RuntimeError(f"not all links came up within {UP_SECONDS} s")
        line = self.process.stdout.readline()
        if line != "up\n":
            raise RuntimeError(f"ends: {line}")
        return self

    def stop(self, sign=signal.SIGTERM):
        """Ends them at once, or with 0 as they end; what they counted."""
        if self.process.stdout.closed:
            return self.counts
        if sign:
            self.process.send_signal(sign)
        text = self.process.communicate(timeout=120)[0]
        words = text.partition("ends: ")[2].split()
        self.counts = {name: int(value) for name, value in zip(words[::2], words[1::2])}
        return self.counts
