"""How much of its stack in a machine's memory a call takes, by the frames of wasm2c's functions."""
import re
from typing import Dict, FrozenSet, List

from .static_library import NotBuilt

FUNCTION = re.compile(r"^static \w+ (w2c_\w+)\([^)]*\) \{\n(.*?)^\}\n(?=\n|\Z)", re.M | re.S)
FRAME = r"= OWN\(instance\)->w2c_g0 - (\d+)ull;"
# A function that calls itself writes a number's digits, which are so many at most.
MOST_DIGITS = 20


def deepest(text: str, names: List[str]) -> int:
    """The octets of stack that these functions take at most, with all that they call."""
    bodies: Dict[str, str] = dict(FUNCTION.findall(text))
    calls = {name: {it for it in re.findall(r"\bw2c_\w+", body) if it in bodies} for name, body in bodies.items()}
    if "CALL_INDIRECT" in text:
        raise NotBuilt("a function is called by its address: nothing says how deep it goes")

    def frame(name: str) -> int:
        frames = {int(it) for it in re.findall(FRAME, bodies[name])}
        if len(frames) > 1 or not frames and re.search(r"\bw2c_g0 =", bodies[name]):
            raise NotBuilt(f"{name} takes its frame in another form than the others")
        return max(frames, default=0) * (MOST_DIGITS if name in calls[name] else 1)

    known: Dict[str, int] = {}

    def below(name: str, above: FrozenSet[str]) -> int:
        if name in above:
            raise NotBuilt(f"{name} calls itself by way of others")
        if name not in known:
            known[name] = frame(name) + max((below(it, above | {name}) for it in calls[name] - {name}), default=0)
        return known[name]

    return max(below(f"w2c_{it}", frozenset()) for it in names)
