"""Which candidates of a run are decided, and at which event updates take effect."""
from typing import NamedTuple

from model.keys import act_digest
from model.values import Body


class Point(NamedTuple):
    """The event at which an operation took effect, and whether its client is faulty."""

    event: int
    client: int
    number: int
    body: Body
    faulty: bool

    @property
    def name(self):
        return f"{self.client}.{self.number}"

    def __str__(self):
        return f"{self.event}:{'faulty-' if self.faulty else ''}{self.name}"


class Points:
    """What correct replicas accepted and handled so far.

    By object and candidate, `by` has the replicas that accepted it, and `decided` those that are decided. By object and
    stamp, `with_stamp` has the accepted candidates, and `ancestors` the priors of decided ones. By client and digest of
    the act, `first` has the event at which an update took effect, and `acts` its number and body.
    """

    def __init__(self, bounds):
        self.enough = bounds.quorum - bounds.faults
        self.by, self.with_stamp = {}, {}
        self.decided, self.ancestors = set(), set()
        self.first, self.acts = {}, {}

    def handled(self, request):
        if request.body.kind == "act":
            act = act_digest(request.client, request.number, request.body)
            self.acts[request.client, act] = (request.number, request.body)

    def accepted(self, event, target, candidate, replica):
        by = self.by.setdefault((target, candidate), set())
        by.add(replica)
        if len(by) == 1:
            self.with_stamp.setdefault((target, candidate.stamp), []).append(candidate)
        is_established = len(by) >= self.enough and not candidate.stamp.barrier
        if is_established or (target, candidate.stamp) in self.ancestors:
            self.decide(event, target, candidate)

    def decide(self, event, target, candidate):
        """Decides a candidate and all that is reached from it by priors: where forged entries gave one stamp several
        candidates, all of these."""
        left = [candidate]
        while left:
            candidate = left.pop()
            if (target, candidate) in self.decided:
                continue
            self.decided.add((target, candidate))
            if candidate.stamp.act:
                self.first.setdefault((candidate.stamp.client, candidate.stamp.act), event)
            self.ancestors.add((target, candidate.prior))
            left += self.with_stamp.get((target, candidate.prior), [])

    def updates(self):
        """The updates that took effect and that a replica handled: event, client, number and body of each."""
        return [(event, act[0], *self.acts[act]) for act, event in self.first.items() if act in self.acts]
