"""What a copy copies: the plan of a target, from the sets, and from what versions tell of other objects."""
from model.classes import classify, repairable
from model.values import COPY, METHOD, NEEDED, STALE, Refusal


class Plans:
    """The plans that sets allow, where `sets` has the entries of each object that is shown.

    `links` of a call has the links of the versions of the plan's evidence, by object and stamp: each a dict from other
    objects to the stamp that the version's object had when it was last made together with one there.
    """

    def __init__(self, sets, bounds):
        self.sets, self.bounds = sets, bounds
        self.classes = {known: classify(sets, known, bounds) for known in sets}

    def code(self, known):
        return self.classes[known].code if known in self.classes else None

    def candidates(self, known):
        """Those without barrier that may be repaired."""
        orders = repairable(self.sets[known], self.bounds)
        return [candidate for candidate in orders if not candidate.stamp.barrier]

    def companions(self, known):
        """The other objects on which something was accepted together with what may be copied here."""
        return {other for candidate in self.candidates(known) for other, _ in candidate.group if other != known}

    def evidence(self, target):
        """The versions whose links the plan of a target rests on, as pairs of an object and a stamp."""
        copied = {target, *(other for other in self.companions(target) if self.code(other) == COPY)}
        told = {other for known in copied for other in self.companions(known) if self.code(other) == METHOD}
        return tuple((other, self.classes[other].object_candidate.stamp) for other in sorted(told))

    def link(self, links, other, known):
        """The link to an object that the version of class METHOD of another one has, or None."""
        return links[other, self.classes[other].object_candidate.stamp].get(known)

    def is_skipped(self, known, candidate, links):
        """Whether an object of the candidate's group has gone on without it."""
        for other, _ in candidate.group:
            if other != known and self.code(other) == METHOD:
                stamp, link = candidate.member(other), self.link(links, other, known)
                if self.classes[other].object_candidate.stamp > stamp and (link is None or link < stamp):
                    return True
        return False

    def chosen(self, known, links):
        """What is copied on an object."""
        return max(candidate for candidate in self.candidates(known) if not self.is_skipped(known, candidate, links))

    def plan(self, target, links):
        """Pairs of an object and the candidate that is copied there, objects rising; or a Refusal, where on an object
        what was accepted together with the target's can neither be copied with it nor is decided."""
        candidate = self.chosen(target, links)
        joint = {target: candidate}
        for other, _ in candidate.group:
            if other == target:
                continue
            link = self.link(links, other, target) if self.code(other) == METHOD else None
            if self.joins(candidate, other, links):
                joint[other] = self.chosen(other, links)
            elif link is not None and link > candidate.member(other):
                return Refusal(STALE, other)
            elif link != candidate.member(other):
                return Refusal(NEEDED, other)
        return tuple(sorted(joint.items()))

    def joins(self, candidate, other, links):
        """Whether on another object of the candidate's group what was accepted together with it is copied too."""
        if self.code(other) != COPY:
            return False
        chosen = self.chosen(other, links)
        return (chosen.stamp, chosen.group) == (candidate.member(other), candidate.group)
