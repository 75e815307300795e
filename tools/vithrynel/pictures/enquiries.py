"""Two enquiries in transit at a time: what T200 must not do. No frame is lost, and contents are told twice."""
from ..svg import Drawing
from .runs import Ladder, Story, steps_of

WIDTH = 940
STORY = Story(
    sent={
        "near": ["enquiry 1", "enquiry 2", "I 0: 07", "enquiry 3", "SABME", "I 0: 07, again"],
        "far": ["RR 0 F=1, to 1", "RR 0 F=1, to 2", "RR 1", "RR 1 F=1, to 3", "UA"],
    },
    told={("near", 1): "V(S) goes back to 0", ("near", 2): "error J, state 5", ("far", 2): "data 07", ("far", 5): "data 07, again",
          ("far", 4): "error F",
          ("near", 0): "state 7", ("near", 4): "state 7"},
    asked=["data 07? granted", "T203 expires: state 8", "T200 expires", "T200 expires: state 8"],
    remarks={},
)


def draw(_: str) -> str:
    """The picture."""
    it = Drawing(
        "Two enquiries in transit",
        "T200 expires while an enquiry is still to be answered. The answer to the second enquiry is taken for that to the third, "
        "so V(S) goes back past an I-frame that has gone. Its acknowledgement then names nothing that was sent: error J and a new "
        "establishment, after which the other end delivers the same contents again.",
    )
    it.text(WIDTH / 2, 30, "A T200 that is too short: no frame is lost, and contents are told twice", size=15, anchor="middle", bold=True)
    it.text(24, 58, "turn", "soft", 12, anchor="middle")
    steps = steps_of("laws_link", "two/WorkedUntimely.antt", "delivered_twice")
    end = Ladder(it, 250, 690, STORY).run(steps, ("this end", "the other end"))
    return it.written(WIDTH, end + 14)
