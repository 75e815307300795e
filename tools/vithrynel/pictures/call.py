"""The worked call of the law that a call comes through, in as many turns as the law allows."""
from ..svg import Drawing
from .runs import Ladder, Step, Story, steps_of

WIDTH = 940
TOLD = {
    ("far", 0): "establish indication", ("near", 0): "establish confirm",
    ("near", 1): "data AB", ("far", 1): "data CDEF",
}
STORY = Story(
    sent={"near": ["SABME", "I 0: CDEF", "RR 1"], "far": ["UA", "I 0: AB", "RR 1"]},
    told=TOLD,
    asked=["establish? granted", "data AB? granted", "data CDEF? granted"],
    remarks={},
)


def draw(_: str) -> str:
    """The picture."""
    it = Drawing(
        "A call in twelve turns",
        "The user's end asks to establish the link; SABME and UA go. Each end is granted to send data once, and the I-frames "
        "cross. Each is acknowledged by RR. Layer 3 of each end is told of the establishment and of the other's data.",
    )
    steps = [Step("near", "requests"), *steps_of("laws_wire", "Worked.antt", "talks")]
    it.text(24, 58, "turn", "soft", 12, anchor="middle")
    it.text(150, 30, "layer 3 asks, and is told", "soft", 12.5, anchor="middle")
    it.text(WIDTH - 130, 30, "layer 3 asks, and is told", "soft", 12.5, anchor="middle")
    end = Ladder(it, 260, 660, STORY).run(steps, ("user's card", "network's card"))
    words = "No turn is left: 12 turns are 4, as one end calls, and 4 for each of two requests for data that were granted."
    it.text(WIDTH / 2, end + 14, words, "ink", 13, anchor="middle")
    it.phrase(WIDTH / 2, end + 36, [("asked", "amber"), ("   told", "violet"), ("   sent by the user's card", "blue"), ("   by the network's", "green")], 12.5, "middle")
    return it.written(WIDTH, end + 52)
