"""What entries tell of an object: which candidates may be repaired, the object's class, and what is trimmed."""
from collections import Counter
from typing import NamedTuple, Optional

from model.values import BARRIER, COPY, INLINE_BARRIER, INLINE_METHOD, METHOD, NEEDS, Candidate, Stamp


class Classified(NamedTuple):
    """The code of an object's class, the greatest candidates that may be repaired, without barrier and with one, and
    the latest stamp; where the class is NEEDS, `needed` is the object that has to be shown."""

    code: int
    object_candidate: Candidate
    barrier_candidate: Optional[Candidate]
    latest: Stamp
    needed: Optional[int] = None


def repairable(entries, bounds):
    """The candidates that so many entries hold that they may be repaired, each with its order."""
    orders = Counter(candidate for entry in entries for candidate in entry.history.candidates)
    return {candidate: order for candidate, order in orders.items() if order >= bounds.repair}


def own_class(entries, bounds):
    """The class that at least a quorum of entries of an object tell, all of which hold the opening candidate, where no
    other object is looked at."""
    orders = repairable(entries, bounds)
    object_candidate = max(candidate for candidate in orders if not candidate.stamp.barrier)
    barrier_candidate = max((candidate for candidate in orders if candidate.stamp.barrier), default=None)
    latest = max(entry.history.latest for entry in entries)
    if latest == object_candidate.stamp:
        code = METHOD if orders[object_candidate] >= bounds.quorum else INLINE_METHOD
    elif barrier_candidate is not None and latest == barrier_candidate.stamp:
        code = COPY if orders[barrier_candidate] >= bounds.quorum else INLINE_BARRIER
    else:
        code = BARRIER
    return Classified(code, object_candidate, barrier_candidate, latest)


def classify(sets, target, bounds):
    """The class of an object, where `sets` has the entries of each object that is shown. A candidate that was accepted
    together with others is completed with all of them, where each object that its group lists shows it as the
    latest."""
    found = own_class(sets[target], bounds)
    if found.code != INLINE_METHOD:
        return found
    others = [known for known, _ in found.object_candidate.group if known != target]
    unshown = [known for known in others if known not in sets]
    if unshown:
        return found._replace(code=NEEDS, needed=unshown[0])
    agree = all(shows(sets[known], found.object_candidate, known, bounds) for known in others)
    return found if agree else found._replace(code=BARRIER)


def shows(entries, candidate, other, bounds):
    """Whether entries of another object of the candidate's group show its member there as the latest."""
    told, stamp = own_class(entries, bounds), candidate.member(other)
    return (told.latest, told.object_candidate.stamp, told.object_candidate.group) == (stamp, stamp, candidate.group)


def trimmed(entries, bounds):
    """The entries without those that go on above all that may be repaired, where a quorum is left."""
    orders = repairable(entries, bounds)
    if not orders:
        return entries
    greatest = max(orders).stamp
    rest = tuple(entry for entry in entries if entry.history.latest <= greatest)
    return rest if len(rest) >= bounds.quorum else entries
