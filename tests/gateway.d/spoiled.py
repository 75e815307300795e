"""Spoiled messages, and states that are damaged, at a program with sanitizers; and the fuzzer of libFuzzer over gateway/iua.c."""
import os
import random
import select
import shutil
import signal
import subprocess

import iua
from checks import Missing, check, each, say
from iua import Association, data, lines, link, message, number, parameter
from peer import Peer
from program import HERE, ROOT, Ends, Gateway, group, run, server

MESSAGES, LONG_MESSAGES = 100_000, 1_000_000
STATES, LONG_STATES = 60, 1000
FRAMES, LONG_FRAMES = 50_000, 500_000
FUZZ_SECONDS, LONG_FUZZ_SECONDS = 5, 120
AT_A_TIME = 32
FAULT = ("AddressSanitizer", "runtime error", "LeakSanitizer", "UndefinedBehaviorSanitizer")
OF_ASAN = {"ASAN_OPTIONS": "detect_leaks=1:abort_on_error=0:exitcode=99", "UBSAN_OPTIONS": "print_stacktrace=1"}


def is_clean(gateway, what):
    """It ends by SIGTERM with 0, and no sanitizer has told anything."""
    log = gateway.log
    found = next((log[log.index(it):][:3000] for it in FAULT if it in log), "")
    return check(f"{what}: no sanitizer tells anything", not found and all(it in (0, -signal.SIGKILL) for it in gateway.statuses),
                 f"{gateway.statuses}\n{found or log[-500:]}")


def seeds():
    """Good messages, of which spoiled ones are made."""
    where = [link(iid, tei, sapi) for iid in (0, 1, 100, 103) for tei in (0, 64, 127) for sapi in (0, 16)]
    found = [message(name, it, data(b"\x08\x02\x00\x01\x05"), number(iua.REASON, 0)) for name in iua.TYPES for it in where[::3]]
    found += [message(name, number(iua.MODE, 1), lines(0, 199)) for name in ("active", "inactive")]
    found += [message("up", number(iua.IDENTIFIER, 7)), message("beat", parameter(iua.BEAT_DATA, bytes(300)))]
    found += [message("active", *[iua.line(it % 4) for it in range(400)]), message("data-request", link(100), data(bytes(3000)))]
    return found


def spoil(chance, good):
    """Octets that are like a message: changed, cut, longer, or two in one."""
    octets = bytearray(chance.choice(good))
    for _ in range(chance.choice((0, 1, 1, 2, 5))):
        octets[chance.randrange(len(octets))] = chance.choice((0, 1, 4, 8, 127, 255, chance.randrange(256)))
    kind = chance.random()
    if kind < 0.15:
        return octets[:chance.randrange(1, len(octets))]
    if kind < 0.2:
        octets += chance.choice(good)
    if kind < 0.3:
        octets[4:8] = len(octets).to_bytes(4, "big")
    return octets


def drained(own):
    """What has come is read, and whether the association goes on."""
    try:
        while select.select([own.socket], [], [], 0)[0]:
            octets = own.socket.recv(iua.MOST_OCTETS)
            if not octets:
                return False
            came = iua.Message(octets)
            if came.name == "beat":
                own.send("beat-ack", parameter(iua.BEAT_DATA, came.beat))
    except ConnectionError:
        return False
    return True


def messages(place):
    """Messages by the hundred thousand: the program lives, answers, and ends well. No association ends."""
    count, chance, good = LONG_MESSAGES if place.is_long else MESSAGES, random.Random(7), seeds()
    sections = [group("basic", 0, 4, "basic"), group("primary", 100, 4, "primary"), server("all", 0, 199)]
    ended, bad = 0, 0
    with Gateway(place.sanitized, place.folder("spoiled-messages"), *sections, environment=OF_ASAN) as gateway:
        ends = [Ends(place.compiled("ends"), gateway.lines, first, 2, kind) for first, kind in ((0, "basic"), (100, "primary"))]
        own = Association(gateway.iua)
        own.begin()
        for at in range(count):
            try:
                own.put(bytes(spoil(chance, good)))
                if at % AT_A_TIME == 0 and not drained(own):
                    raise ConnectionError
            except iua.Bad as why:
                bad += 1
                check("what the gateway sends has the form of IUA", False, why)
                break
            except OSError:
                ended += 1
                own.close()
                if gateway.process.poll() is not None:
                    break
                own = Association(gateway.iua)
                own.begin()
        own.close()
        with Association(gateway.iua) as other:
            answer = other.begin()
            check("it answers after spoiled messages", answer is not None and answer.name == "active-ack", answer)
        told = gateway.metric("iua_received_total")
        for it in ends:
            it.stop()
    check("spoiled messages end no association", ended == 0 and not bad, ended)
    check("they were received", told >= count * 0.99, told)
    is_clean(gateway, "spoiled messages")
    say(f"spoiled: {count} messages under sanitizers")


def frames(place):
    """Packets at random at the sockets of lines: frames, signals, names of lines."""
    count, chance = LONG_FRAMES if place.is_long else FRAMES, random.Random(9)
    kinds = [bytes([0, 1, 0x7F]), bytes([2, 1, 0, 0]), bytes([0, 1, 0, 0, 8, 1, 1, 5]), bytes([0, 0x81, 0x7F]),
             bytes([0xFC, 0xFF, 3, 15, 0x12, 0x34, 1, 0xFF]),
             bytes([0, 1, 0x53]), bytes([2, 1, 0x73]), bytes([2, 1, 1, 1]), bytes([2, 1, 5, 1]), bytes([0, 1, 9, 1]),
             bytes([0x40, 1, 0x7F]), b"U", b"D", b"A", b"W", bytes(300)]
    with Gateway(place.sanitized, place.folder("spoiled-frames"), group("basic", 0, 2, "basic"),
                 group("primary", 100, 2, "primary"),
                 group("user", 200, 1, "primary", side="user"), group("terminal", 300, 1, "basic", side="terminal"),
                 server("all", 0, 399),
                 environment=OF_ASAN) as gateway, Association(gateway.iua) as own:
        own.begin()
        peers, where = {}, [0, 1, 100, 101, 200, 300]
        for at in range(count):
            iid = chance.choice(where)
            try:
                if iid not in peers or chance.random() < 0.0005:
                    if iid in peers:
                        peers.pop(iid).close()
                    peers[iid] = Peer(gateway.lines, iid, first=chance.choice((b"", b"", b"D")))
                octets = bytearray(chance.choice(kinds))
                for _ in range(chance.choice((0, 0, 1, 3))):
                    octets[chance.randrange(len(octets))] = chance.randrange(256)
                peers[iid].put(bytes(octets))
                while select.select([peers[iid].socket], [], [], 0)[0] and peers[iid].socket.recv(400):
                    pass
            except OSError:
                peers.pop(iid).close()
            if at % AT_A_TIME == 0 and not drained(own):
                check("the association goes on", False, "it ends")
                break
        for it in peers.values():
            it.close()
        check("it answers after spoiled frames", gateway.fetched("/ready")[0] == 200, "")
    is_clean(gateway, "spoiled frames")
    say(f"spoiled: {count} frames and signals under sanitizers")


def states(place):
    """A state file that is damaged is told, and the program starts without it, or ends in a sentence; it never takes it as good."""
    count, chance, folder = LONG_STATES if place.is_long else STATES, random.Random(1), place.folder("spoiled-states")
    sections = [group("basic", 0, 2, "basic"), group("primary", 100, 2, "primary"), server("all", 0, 199)]
    gateway = Gateway(place.sanitized, folder, *sections, environment=OF_ASAN)
    with gateway:
        with Ends(place.compiled("ends"), gateway.lines, 0, 2, "basic"), Ends(place.compiled("ends"), gateway.lines, 100, 2,
                                                                              "primary"):
            with Association(gateway.iua) as own:
                own.begin()
                own.send("data-request", link(100), data(b"\x08\x02\x00\x01\x05"))
                own.want("data-indication")
            gateway.stop()
    with open(f"{folder}/state", "rb") as file:
        good = file.read()
    check("the state is a file", len(good) > 1000, len(good))
    restored = started(gateway, good)
    check("a good state is taken", any("state" in it and "damaged" not in it for it in restored), restored)
    taken = 0
    for at in range(count):
        octets = bytearray(good)
        if at % 3 == 0:
            octets = octets[:chance.randrange(len(octets))]
        else:
            for _ in range(chance.choice((1, 1, 4))):
                octets[chance.randrange(len(octets))] ^= 1 << chance.randrange(8)
        taken += started(gateway, octets) == restored
    check("no damaged state is taken as good", taken == 0, taken)
    is_clean(gateway, "damaged states")
    say(f"spoiled: {count} damaged states under sanitizers")


def started(gateway, octets):
    """What a start says with this state, up to its end."""
    with open(f"{gateway.folder}/state", "wb") as file:
        file.write(octets)
    before = len(gateway.log)
    gateway.start()
    said = gateway.log[before:].splitlines()
    gateway.stop()
    return said


def cpu_bound_fuzz(place, folder):
    """The fuzzer by clang's libFuzzer; its words."""
    if not shutil.which("clang"):
        raise Missing("there is no clang")
    made = f"{folder}/fuzz_iua"
    said = run(["clang", "-std=c11", "-O1", "-g", "-fsanitize=fuzzer,address,undefined", "-fno-sanitize-recover=all",
                f"-I{ROOT}/gateway", "-o", made,
                f"{HERE}/fuzz_iua.c", f"{ROOT}/gateway/iua.c"])
    if said.returncode:
        raise Missing("clang has no libFuzzer: " + said.stderr.decode()[-300:])
    return [made, "-max_len=4200", f"-max_total_time={LONG_FUZZ_SECONDS if place.is_long else FUZZ_SECONDS}", "-timeout=5",
            "-print_final_stats=1"]


def fuzzed(place):
    """libFuzzer over the reader and the writer of messages."""
    folder = place.folder("fuzzed")
    os.makedirs(f"{folder}/corpus", exist_ok=True)
    for at, octets in enumerate(seeds()):
        with open(f"{folder}/corpus/{at}", "wb") as file:
            file.write(octets)
    said = subprocess.run([*cpu_bound_fuzz(place, folder), f"{folder}/corpus"], capture_output=True, cwd=folder, timeout=600,
                          check=False)
    told = said.stderr.decode(errors="replace")
    runs = [it.split()[-1] for it in told.splitlines() if it.startswith("stat::number_of_executed_units")]
    check("the fuzzer finds nothing", said.returncode == 0 and runs and int(runs[0]) > 10000, told[-3000:])
    say(f"spoiled: libFuzzer reads {runs[0] if runs else 0} messages")


def spoiled(place):
    """Spoiled messages, frames and states under sanitizers, and libFuzzer over iua.c."""
    each(place, messages, frames, states, fuzzed)
