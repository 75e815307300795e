"""The messages of other tests, as tshark reads them: field by field as iua.py does."""
import collections
import shutil
import struct
import subprocess

import iua
from checks import Missing, check, say

OPTIONS = ["-o", "iua.support_ig:TRUE", "-o", "iua.use_gsm_sapi_values:FALSE"]
FIELDS = {
    "iua.version": lambda it: [iua.VERSION], "iua.message_class": lambda it: [it.kind[0]],
    "iua.message_type": lambda it: [it.kind[1]],
    "iua.message_length": lambda it: [len(it.octets)], "iua.dlci_sapi": lambda it: [it.sapi], "iua.dlci_tei": lambda it: [it.tei],
    "iua.error_code": lambda it: [it.error], "iua.release_reason": lambda it: [it.reason],
    "iua.tei_status": lambda it: [it.tei_status],
    "iua.traffic_mode_type": lambda it: [it.mode], "iua.asp_identifier": lambda it: [it.identifier],
    "iua.int_interface_identifier": lambda it: [it.iid], "iua.status_type": lambda it: [it.status and it.status[0]],
    "iua.status_identification": lambda it: [it.status and it.status[1]],
    "iua.interface_range_start": lambda it: [first for first, _ in it.range or ()],
    "iua.interface_range_end": lambda it: [last for _, last in it.range or ()],
    "iua.parameter_tag": lambda it: it.tags}
LEAST, MOST = 1000, 60000


def capture(log, path):
    """The log as packets of SCTP in IP: each message is a DATA chunk with its stream and IUA's payload protocol."""
    numbers = [0, 0]
    with open(path, "wb") as file:
        file.write(struct.pack(">IHHIIII", 0xA1B2C3D4, 2, 4, 0, 0, 65535, 101))
        for at, (is_ours, stream, octets) in enumerate(log):
            numbers[is_ours] += 1
            chunk = struct.pack(">BBHIHHI", 0, 3, 16 + len(octets), numbers[is_ours], stream, numbers[is_ours] & 0xFFFF,
                                iua.PAYLOAD)
            ports = (40000, iua.PORT) if is_ours else (iua.PORT, 40000)
            sctp = struct.pack(">HHII", *ports, 1 + is_ours, 0) + chunk + octets + bytes(-len(octets) % 4)
            ends = bytes([10, 0, 0, 2, 10, 0, 0, 1]) if is_ours else bytes([10, 0, 0, 1, 10, 0, 0, 2])
            packet = struct.pack(">BBHHHBBH", 0x45, 0, 20 + len(sctp), at & 0xFFFF, 0, 64, 132, 0) + ends + sctp
            file.write(struct.pack(">IIII", at // 1000, at % 1000 * 1000, len(packet), len(packet)) + packet)


def read(path):
    """What tshark reads of each packet: its fields by their names, each with all its values."""
    names = [*FIELDS, "frame.number", "_ws.malformed", "_ws.expert.message"]
    words = ["tshark", "-r", path, *OPTIONS, "-T", "fields", "-E", "separator=|", "-E", "occurrence=a"]
    said = subprocess.run([*words, *(it for name in names for it in ("-e", name))], capture_output=True, text=True, check=False)
    for row in said.stdout.splitlines():
        yield dict(zip(names, row.split("|")))


def differs(row, message):
    """What tshark reads otherwise."""
    for name, values in FIELDS.items():
        wanted = [it for it in values(message) if it is not None]
        found = [int(it, 0) for it in row[name].split(",") if it]
        if name == "iua.int_interface_identifier" and message.tags.count(iua.IID) > 1:
            found = found[-1:]
        if found != wanted:
            yield f"{name}: {found}, and not {wanted}"


def wireshark(place):
    """Each message of the tests before, read by tshark as well: none differs."""
    if not shutil.which("tshark"):
        raise Missing("there is no tshark")
    log = place.log[:MOST]
    capture(log, f"{place.top}/iua.pcap")
    counts, faults = collections.Counter(), []
    for (is_ours, stream, octets), row in zip(log, read(f"{place.top}/iua.pcap")):
        try:
            message = iua.Message(octets, stream)
        except (iua.Bad, struct.error):
            counts["spoiled"] += 1
            faults += [f"the gateway sent {octets.hex()}"] * (not is_ours)
            continue
        counts[message.name] += 1
        counts["of the gateway"] += not is_ours
        faults += [f"{message}: {it}" for it in differs(row, message)]
        if not is_ours and row["_ws.malformed"] and not message.data:  # contents are not always of Q.931
            faults.append(f"{message}: {row['_ws.expert.message']}")
    read_well = sum(counts[name] for name in iua.TYPES)
    check("messages read by tshark", read_well >= LEAST and {*iua.TYPES} <= {*counts}, (read_well, {*iua.TYPES} - {*counts}))
    check("none is read otherwise", not faults, faults[:10])
    say(f"wireshark: {read_well} messages are read by tshark, {counts['of the gateway']} of them the gateway's, "
        f"{len(faults)} otherwise")
