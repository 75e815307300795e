"""Writes the same frames as captures of each kind that lapd-monitor reads."""
import struct

LINUX_LAPD, LAPD, ETHERNET = 177, 203, 1
SIDE_OF_NETWORK = 1


def frames_of(text):
    """Of lines MS N|U HEX: the milliseconds, whether the network sent it, and the octets."""
    for line in text.splitlines():
        at, sender, octets = line.split()
        yield float(at), sender == 'N', bytes.fromhex(octets)


def pseudo_header(from_network, side=SIDE_OF_NETWORK):
    is_sent = from_network == bool(side)
    return struct.pack('>HHHB7xH', 4 if is_sent else 0, 8445, 1, side, 0x30)


def pcap(frames, order='>', is_nano=False, link_type=LINUX_LAPD, side=SIDE_OF_NETWORK):
    out = [struct.pack(order + 'IHHiIII', 0xA1B23C4D if is_nano else 0xA1B2C3D4, 2, 4, 0, 0, 65535, link_type)]
    for at, from_network, octets in frames:
        packet = (pseudo_header(from_network, side) if link_type == LINUX_LAPD else b'') + octets
        micros = round(at * 1000)
        part = micros % 10**6 * (1000 if is_nano else 1)
        out.append(struct.pack(order + 'IIII', micros // 10**6, part, len(packet), len(packet)) + packet)
    return b''.join(out)


def block(order, kind, body):
    body += bytes(-len(body) % 4)
    return struct.pack(order + 'II', kind, len(body) + 12) + body + struct.pack(order + 'I', len(body) + 12)


def option(order, code, value):
    return struct.pack(order + 'HH', code, len(value)) + value + bytes(-len(value) % 4)


def pcapng(frames, order='<', link_type=LINUX_LAPD, resolution=6, has_directions=True, at_network=True):
    """With link type 203 the frames of the side where it is captured go out."""
    options = option(order, 9, bytes([resolution])) + option(order, 0, b'')
    out = [block(order, 0x0A0D0D0A, struct.pack(order + 'IHHq', 0x1A2B3C4D, 1, 0, -1)),
           block(order, 1, struct.pack(order + 'HHI', link_type, 0, 65535) + options),
           block(order, 5, bytes(12))]
    for at, from_network, octets in frames:
        packet = octets if link_type == LAPD else pseudo_header(from_network) + octets
        ticks = round(at * 10**(resolution - 3))
        flags = option(order, 2, struct.pack(order + 'I', 2 if from_network == at_network else 1)) if has_directions else b''
        head = struct.pack(order + 'IIIII', 0, ticks >> 32, ticks & 0xFFFFFFFF, len(packet), len(packet))
        out.append(block(order, 6, head + packet + bytes(-len(packet) % 4) + flags))
    return b''.join(out)


def gsmtap(frames):
    """Packets of UDP over Ethernet, with a packet of another port between each two."""
    def of(port, data):
        udp = struct.pack('>HHHH', 40000, port, 8 + len(data), 0) + data
        ip = struct.pack('>BBHHHBBHII', 0x45, 0, 20 + len(udp), 0, 0, 64, 17, 0, 0x7F000001, 0x7F000001)
        return bytes(12) + b'\x08\x00' + ip + udp
    out = [struct.pack('<IHHiIII', 0xA1B2C3D4, 2, 4, 0, 0, 65535, ETHERNET)]
    for at, from_network, octets in frames:
        head = struct.pack('>BBBBHBBIBBBB', 2, 4, 0x13, 16, 0 if from_network else 0x4000, 0, 0, 0, 1, 0, 0, 0)
        micros = round(at * 1000)
        for packet in (of(4729, head + octets), of(53, b'x')):
            out.append(struct.pack('<IIII', micros // 10**6, micros % 10**6, len(packet), len(packet)) + packet)
    return b''.join(out)
