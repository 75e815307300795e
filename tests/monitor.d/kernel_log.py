"""Makes of the log of a run of tests/kernel (`run --seed N`) what a tap hears: lines MS N|U HEX."""
import re

FRAME = re.compile(r'\s*([\d.]+) (<-|->) (lost )?(\d+)((?: [0-9A-F]{2})+)(?: \.\. \((\d+)\))?$')


def numbers_of(log):
    """What the run is like: the kernel's side, terminals, devices and so on."""
    return dict(re.findall(r'(\w+)=([\w-]+)', next(it for it in log.splitlines() if re.match(r'(good|BAD) seed=', it))))


def tapped(log):
    """Our cards' frames go to each device of the kernel's, and the kernel's to each of our cards: of such a group one is tapped.
    What the log leaves out of a frame is zeros."""
    numbers = numbers_of(log)
    kernel_is_network = numbers['side'].startswith('nt')
    copies = {'<-': int(numbers['terms']) if kernel_is_network else 1, '->': int(numbers['devs'])}
    latest = {'<-': ('', 0), '->': ('', 0)}
    for line in log.splitlines():
        found = FRAME.match(line)
        if not found:
            continue
        at, way, _, _, octets, length = found.groups()
        octets = octets.replace(' ', '')
        octets += '00' * (int(length) - len(octets) // 2) if length else ''
        before, number = latest[way]
        is_copy = octets == before and number < copies[way]
        latest[way] = (octets, number + 1 if is_copy else 1)
        if not is_copy:
            yield '%d %s %s' % (round(float(at) * 1000), 'N' if (way == '<-') == kernel_is_network else 'U', octets)
