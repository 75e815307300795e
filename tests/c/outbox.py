"""Tries the outbox that lapd.py shows at its top, for tests/c/bindings."""
import collections
import dataclasses
import random
import re

from compiled import check


def outbox_of_python(lapd):
    """The outbox that lapd.py shows at its top, over a wire that loses frames, as links are released and given up."""
    shown, names = re.search(r"^    LATER = .*\n(?:(?:    .*)?\n)*", lapd.__doc__, re.M), {"lapd": lapd, "collections": collections}
    exec(re.sub("^    ", "", shown[0], flags=re.M), names)  # pylint: disable=exec-used
    chance, link, came, counts = random.Random(4), (0, lapd.Service.CALL, 5), set(), []
    messages = [it.to_bytes(2, "big") for it in range(2000)]
    far_end = dataclasses.replace(lapd.BASIC_ACCESS, side=lapd.Side.USER)
    wrong_teis = []

    def check_tei(report):
        if report.given_up_tei != (5 if report.given_up else None):
            wrong_teis.append(report)

    with lapd.TimedFrameCard(lapd.BASIC_ACCESS) as near, lapd.TimedFrameCard(far_end) as far:
        box = names["Outbox"](near, *link)
        box.waiting.extend(messages)

        def reads(card, report):
            if card is near:
                counts.append(report.given_up)
                check_tei(report)
                box.gave_up(report)
                box.send_waiting()
            elif report.contents is not None:
                came.add(report.contents)

        for card in (near, far):
            card.assign(0, 5)
        for now in range(0, 2000000, 10):
            for card, other in ((near, far), (far, near)):
                for report in card.fall_due(now):
                    reads(card, report)
                if card.state(*link) == lapd.State.TEI_ASSIGNED:
                    reads(card, card.establish(*link))
                elif chance.random() < 0.002 and card.state(*link) == lapd.State.ESTABLISHED:
                    reads(card, chance.choice((card.release, card.deactivate))(*link))
                for octets, report in iter(lambda own=card: own.next_frame(0), None):
                    reads(card, report)
                    if chance.random() > 0.15:
                        reads(other, other.frame(0, octets))
            if len(came) == len(messages):
                break
        near.deactivate(*link)
        box.waiting.extend((b"too long" * 40, b"after it"))
        box.send_waiting()
        check("the outbox of lapd.py: in state 4 messages wait", len(box.waiting) == 2, len(box.waiting))
        near.frame(0, bytes.fromhex("000B7F"))  # SABME of TEI 5
        try:
            box.send_waiting()
            check("the outbox of lapd.py: a message that is too long is told", False, "nothing")
        except lapd.Refused as why:
            check("the outbox of lapd.py: a message that is too long is told", why.status == lapd.Status.REFUSED_TOO_LONG, why.status)
    check("the outbox of lapd.py: the TEI of what is given up", not wrong_teis, wrong_teis[:2])
    check("the outbox of lapd.py: nothing is missing", len(came) == len(messages), len(came))
    check("the outbox of lapd.py: much is given up", sum(counts) > 100 and max(counts) > 1, sum(counts))
