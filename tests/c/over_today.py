"""Programs that were compiled with an earlier header run over the library of today (tests/c/versions; earlier.py has the rule):
first.c, gateway.c by what gateway_calls.c asks of it, and standby.c, whose active process is killed. For tests/c/run."""
import os
import signal
import socket
import struct
import subprocess

from compiled import HERE, ROOT, STRICT, check, read, run
from earlier import edited, grown, kept, versions

EXAMPLES = f"{ROOT}/examples/c"
PROGRAMS = {"first": [f"{EXAMPLES}/first.c", f"{HERE}/memory.c"],
            "gateway": [f"{HERE}/gateway_calls.c", f"{EXAMPLES}/gateway.c", f"{EXAMPLES}/trace.c"],
            "standby": [f"{EXAMPLES}/standby.c", f"{HERE}/memory.c"]}
# A message of standby.h, up to its contents: kind, what, service, TEI, error, length, number, status.
MESSAGE = struct.Struct("=5B1x1H2I")
ASK, ANSWER, TOLD, ACTIVE = 1, 2, 3, 4
ASSIGN, ESTABLISH_INDICATION = 5, 1
LAYER_3 = 3  # the socket of layer 3


def compiled_with(build, header, label):
    """The programs, compiled with a header, over the library of today; None where one does not compile."""
    folder = f"{build.folder}/{label}"
    os.makedirs(folder)
    with open(f"{folder}/lapd.h", "w", encoding="utf-8") as file:
        file.write(header)
    for name, sources in PROGRAMS.items():
        said = run([*build.words, "-std=c99", *STRICT, f"-I{folder}", f"-I{ROOT}/include", f"-I{EXAMPLES}", f"-I{HERE}", "-O1", "-g", "-o", f"{folder}/{name}",
                    *sources, build.library])
        check(f"{build.name}: {name} compiles with {label}", said.returncode == 0, said.stderr.decode()[:600])
        if said.returncode != 0:
            return None
    return folder


def said_of_layer_3(layer_3, kind):
    """The next message of a kind: what it says, and its number and status."""
    while True:
        found = MESSAGE.unpack(layer_3.recv(1024)[:MESSAGE.size])
        if found[0] == kind:
            return found


def survives(path):
    """A terminal's link comes up at standby.c; its active process is killed, and the other answers the terminal's next poll."""
    (line, own_line), (layer_3, own_layer_3) = (socket.socketpair(socket.AF_UNIX, socket.SOCK_SEQPACKET) for _ in range(2))
    for it in (line, layer_3):
        it.settimeout(20)
    with line, own_line, layer_3, own_layer_3:
        process = subprocess.Popen([path], stdin=own_line, stderr=subprocess.PIPE, pass_fds=[LAYER_3],
                                   preexec_fn=lambda: os.dup2(own_layer_3.fileno(), LAYER_3))
        own_line.close()
        own_layer_3.close()
        try:
            first = said_of_layer_3(layer_3, ACTIVE)
            layer_3.send(MESSAGE.pack(ASK, ASSIGN, 0, 64, 0, 0, 1, 0))
            granted = said_of_layer_3(layer_3, ANSWER)[7] == 0
            line.send(bytes.fromhex("00817F"))  # SABME of TEI 64
            told = said_of_layer_3(layer_3, TOLD)[1] == ESTABLISH_INDICATION
            answered = line.recv(1024) == bytes.fromhex("008173")  # UA
            os.kill(first[6], signal.SIGKILL)
            second = said_of_layer_3(layer_3, ACTIVE)
            line.send(bytes.fromhex("00810101"))  # RR with P=1
            goes_on = line.recv(1024) == bytes.fromhex("00810101")  # RR with F=1
            return granted and told and answered and second[6] != first[6] and goes_on
        except (OSError, struct.error):
            return False
        finally:
            line.close()
            layer_3.close()
            process.wait(timeout=20)


def they_run(build, folder, wanted):
    """Whether the programs in a folder do what they do with the header of today."""
    with open(os.devnull, "rb") as nothing:
        first = run([f"{folder}/first"], nothing)
        gateway = run([f"{folder}/gateway"], nothing)
    return {"first": (first.returncode, first.stdout) == (0, wanted), "gateway": gateway.returncode == 0, "standby": survives(f"{folder}/standby")}


def programs_of_before(build, wanted):
    """Each earlier header; a copy of today's that has grown by the rule; and one in which a field has moved, which the programs have to
    show. `wanted` is what first.c prints."""
    today = read(f"{ROOT}/include/lapd.h").decode()
    for label, header in {**{it: kept(f"{it}.h") for it in versions()}, "a header that has grown": grown(today)}.items():
        folder = compiled_with(build, header, label)
        for name, good in (they_run(build, folder, wanted) if folder else {}).items():
            check(f"{build.name}: {name}, compiled with {label}", good, "it does not do what it does with the header of today")
    moved = edited(today, r"(    uint8_t note; [^\n]*\n)(    uint8_t service; [^\n]*\n)(    uint8_t tei; [^\n]*\n)", r"\3\2\1")
    folder = compiled_with(build, moved, "a header that breaks the rule")
    good = they_run(build, folder, wanted) if folder else {}
    check(f"{build.name}: programs that were compiled with a header that breaks the rule do not run", folder and not any(good.values()), good)
