"""The service under a running systemd, in namespaces of its own: its unit as it is installed, a reload, a kill and a restart."""
import os
import re
import shutil
import subprocess
import tempfile

from checks import Missing, check
from program import HERE, ROOT, built, group, run, section, server

MOST_SECONDS = 120
NAMESPACES = ["unshare", "--mount", "--propagation", "private", "--pid", "--uts", "--ipc", "--cgroup", "--fork", "--kill-child"]
WANTED = {"start": "active", "user": "lapd-gateway", "reload": "0", "same": "yes", "bad reload": "active", "killed": "active",
          "restart": "0", "stop": "0"}


def need():
    """What this needs: systemd, and to be root where a root can have a layer over it."""
    if os.geteuid() != 0:
        raise Missing("it needs root")
    if not os.path.exists("/lib/systemd/systemd") or not shutil.which("unshare"):
        raise Missing("there is no systemd or no unshare")
    with tempfile.TemporaryDirectory() as folder:
        layer = (f"mount -t tmpfs none {folder} && mkdir {folder}/a {folder}/b {folder}/c && mount -t overlay none -o "
                 f"lowerdir=/,upperdir={folder}/a,workdir={folder}/b {folder}/c && mount -t cgroup2 none {folder}/a")
        if run(["unshare", "--mount", "--cgroup", "sh", "-c", layer]).returncode != 0:
            raise Missing("this machine's root takes no layer in a namespace, or it has no cgroup2")


def text_of(path):
    if not os.path.exists(path):
        return ""
    with open(path, encoding="utf-8") as file:
        return file.read()


def supervised(place):
    """The service under systemd, in namespaces: its start, reload, kill, restart and end."""
    need()
    folder = place.folder("supervised")
    built(["cmake", "-S", f"{ROOT}/gateway", "-B", f"{folder}/built", "-DCMAKE_INSTALL_PREFIX=/usr"], "the unit")
    for path in (place.program, f"{folder}/built/lapd-gateway.service", f"{HERE}/supervised.job"):
        shutil.copy(path, f"{folder}/{'lapd-gateway' if path == place.program else os.path.basename(path)}")
    with open(f"{folder}/lapd-gateway.conf", "w", encoding="ascii") as file:
        file.write(section("gateway", unix="/run/lapd-gateway/iua", lines="/run/lapd-gateway/lines",
                           state="/var/lib/lapd-gateway/state") + group("all", 0, 4, "primary") + server("all", 0, 99))
    try:
        console = run([*NAMESPACES, "bash", f"{HERE}/supervised.sh", os.path.abspath(folder)], timeout=MOST_SECONDS)
        said = (console.stdout + console.stderr).decode(errors="replace")
    except subprocess.TimeoutExpired:
        said = f"it took longer than {MOST_SECONDS} s"
    text = text_of(f"{folder}/out/log")
    found = dict(re.findall(r"^([a-z ]+): (.*)$", text.partition("\nthe gateway serves")[0], re.M))
    for name, value in WANTED.items():
        check(f"under systemd: {name}", found.get(name) == value, f"{found.get(name)}\n{text[-1500:]}\n{said[-500:]}")
    for words in ("the gateway serves 4 lines", "there are 6 lines", "nothing changes", "lines go on from the saved state"):
        check(f"under systemd: its log has `{words}`", words in text, text[-1500:])
    check("under systemd: it is over", text.endswith("over\n"), text[-300:])
