"""What happens in a run, by the lines of its script: in the words that `# expect` lines have.

    reply 1.1 5, gaveup 1.1, point 1.1, point 2.1 faulty add 0 5, waits r4, found r4, asks 1.1 round 2 act,
    asks 1.1 round 3 mend 0, rests c1 4, refused busy; and behind the last line premises hold, open 1.1
"""
import re
from typing import NamedTuple

from model.listing import ListedWorld
from model.player import Player
from model.report import audited, premises_line
from model.script import read_script
from model.world import Refused
from picture.listing import read_listing


class Happened(NamedTuple):
    """A line of a script that makes events: its number, and words for each thing that happened at it."""

    number: int
    words: list


class Played(NamedTuple):
    """A script that was run: its world, for each line that it ran the number of the line and of its last event, and the
    words of a refusal, if one ended it."""

    world: ListedWorld
    lines: list
    refused: str


def played(data):
    """Runs a script by the model. Raises Refused where the script is."""
    script, lines = read_script(data), []
    player = Player(ListedWorld(script.setup))
    for line in script.lines:
        try:
            player.play(line.word, line.needs)
        except Refused as refused:
            return Played(player.world, [*lines, (line.number, player.world.events)], refused.kind)
        lines.append((line.number, player.world.events))
    return Played(player.world, lines, "")


def listing_of(world):
    """The listing of a world, as qu-letters writes it."""
    return "".join(f"{line}\n" for line in world.lines()).encode()


def asked_words(frame):
    """What a client asks in a round: `act`, `query`, `mend 0`."""
    return f"asks {frame.operation} round {frame.round} {frame.body.replace('object ', '')}"


def event_words(run, event):
    """What happened at an event of a listing."""
    words = [point.line for point in run.points if point.event == event.number]
    who = event.party.short
    if event.waits:
        words.append(f"waits {who}")
    if "found" in event.counted:
        words.append(f"found {who}")
    if event.ends:
        words.append(f"gaveup {event.ends}" if event.answer is None else f"reply {event.ends} {event.answer}")
    if event.rests and event.over:
        words.append(f"rests {who} {re.search('[0-9]+', event.rests)[0]}")
    if event.asks in ("all", "the preferred"):
        words.append(asked_words(run.letter(event.sends[0]).frame))
    return words


def last_words(play):
    """What is told of the whole run: the operations without an end, and the premises."""
    ends, operations = play.world.ends, play.world.operations
    names = sorted((each.client, each.number) for each in operations if (each.client, each.number) not in ends)
    return [*(f"open {client}.{number}" for client, number in names), premises_line(audited(play.world))]


def happened(data, listing=None):
    """What happened at each line of a script that makes events, and behind all of them: a Happened for each. The events
    are those of a listing, where one is given, and else of the model. Raises Refused, and Malformed where the text is
    no listing."""
    play = played(data)
    run = read_listing(listing or listing_of(play.world))
    told, first = [], 0
    for number, last in play.lines:
        words = [words for event in run.events[first:last] for words in event_words(run, event)]
        told.append(Happened(number, words))
        first = last
    if play.refused:
        told[-1].words.append(f"refused {play.refused}")
    elif told:
        told[-1].words.extend(last_words(play))
    return told
