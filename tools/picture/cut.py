"""Which events, parties and letters a picture shows."""
from dataclasses import dataclass

from picture.faults import Malformed, WrongWords

MOST_EVENTS = 400


@dataclass(frozen=True)
class Cut:
    """What is asked for: first and last event, first and last letter, names of parties; None is no bound."""

    events: tuple | None = None
    letters: tuple | None = None
    parties: tuple | None = None

    def has_letter(self, number):
        return not self.letters or self.letters[0] <= number <= self.letters[1]

    def has_event(self, event):
        if self.events and not self.events[0] <= event.number <= self.events[1]:
            return False
        if self.parties and event.party.short not in self.parties:
            return False
        return not self.letters or any(self.has_letter(each) for each in [event.letter, *event.sends])


@dataclass
class Shown:
    """What a picture shows: the parties by their lines, the events by their rows, and the letters with an arrow."""

    parties: list
    events: list
    letters: list


def shown(run, cut, faulty):
    """What is shown of a run: parties that the listing or the setup names. Raises WrongWords where a bound names no
    party of the run or leaves no event, Malformed where too many events are left."""
    parties = sorted({*run.parties(), *faulty})
    known = {party.short for party in parties}
    for name in cut.parties or ():
        if name not in known:
            raise WrongWords(f"no party {name}, there are {' '.join(each.short for each in parties)}")
    if cut.parties:
        parties = [party for party in parties if party.short in cut.parties]
    events = [event for event in run.events if cut.has_event(event)]
    if run.events and not events:
        raise WrongWords(f"no event is left of {len(run.events)}")
    if len(events) > MOST_EVENTS:
        raise Malformed(line_of_event(run, events[MOST_EVENTS]),
                        f"too many events, {len(events)}; a picture has {MOST_EVENTS} at most: "
                        f"cut it by --events 1-{MOST_EVENTS}, --parties c1 r0, or --letters 1-100")
    letters = [letter for letter in run.letters if cut.has_letter(letter.number)
               and letter.sender in parties and letter.receiver in parties]
    return Shown(parties, events, letters)


def line_of_event(run, event):
    """The line of the listing that has this event: before it stand the events, points and letters before."""
    letters = sum(len(each.sends) for each in run.events[:event.number - 1])
    return event.number + letters + sum(point.event < event.number for point in run.points)
