"""The ladder of the conversation that the README tells of."""
import os
from typing import Optional

from .. import ladder_svg, script
from ..play import Play
from ..program import ROOT, Fault
from ..story import stories

SCRIPT = os.path.join(ROOT, "tests", "scripts", "conversation", "call.script")


def draw(program: Optional[str]) -> str:
    """The picture."""
    play = Play(script.read(SCRIPT), program)
    told = stories(play.steps())
    if play.ended.fault:
        raise Fault(play.ended.fault)
    return ladder_svg.draw([("A terminal is plugged in and makes a call", told[0])])
