"""Whether calls and replies have a serial order, by the search of Wing and Gong with memory of what was visited.

It knows calls, replies and the tables of the kinds of objects, and nothing of points or of the protocol. An operation
without a reply may have happened at any time behind its call, or never.
"""
from typing import NamedTuple, Optional

from model.kinds import FRESH, performed
from model.report import answer_words, operation_words
from model.values import Body

# So many states are visited at most.
MOST_STATES = 300_000
NEVER = float("inf")


class Undecided(Exception):
    """The search took too long."""


class Timed(NamedTuple):
    """An operation: what it asks, where it begins and ends (NEVER: it has no reply), and the words of its answer."""

    name: str
    body: Body
    begun: float
    ended: float
    answer: Optional[str]


def parted(operations):
    """Operations by groups, such that no two groups have an object in common: an order of each is an order of all."""
    homes = {}
    for operation in operations:
        mine = {known: homes.get(known, {known}) for known in operation.body.objects}
        together = set().union(*mine.values(), operation.body.objects)
        homes.update((known, together) for known in together)
    groups = {}
    for operation in operations:
        groups.setdefault(min(homes[operation.body.objects[0]]), []).append(operation)
    return list(groups.values())


def disorder(operations, kinds):
    """None where these operations have a serial order, else words that tell why not. Raises Undecided."""
    for group in parted([each for each in operations if each.answer is not None or each.body.kind == "act"]):
        search = Search(group, kinds)
        if not search.finds():
            return search.why()
    return None


class Search:
    """A search for an order of operations on objects of these kinds.

    A state is a number whose bits are the operations that have taken place, and the values of the objects then.
    """

    def __init__(self, operations, kinds):
        self.operations = sorted(operations, key=lambda operation: (operation.ended, operation.begun))
        self.kinds = kinds
        self.objects = sorted({known for operation in operations for known in operation.body.objects})
        self.places = {known: at for at, known in enumerate(self.objects)}
        self.must = sum(1 << at for at, each in enumerate(self.operations) if each.answer is not None)
        self.best, self.values_then, self.visited = 0, None, set()

    def finds(self):
        first = (0, tuple(FRESH[self.kinds[known]] for known in self.objects))
        left, self.visited = [first], {first}
        while left:
            done, values = left.pop()
            if self.count(done) > self.count(self.best) or self.values_then is None:
                self.best, self.values_then = done, values
            if done & self.must == self.must:
                return True
            for state in self.following(done, values):
                if state not in self.visited:
                    self.visited.add(state)
                    left.append(state)
            if len(self.visited) > MOST_STATES:
                raise Undecided
        return False

    def count(self, done):
        return (done & self.must).bit_count()

    def following(self, done, values):
        """The states behind one more operation. Where one that may stand here changes nothing, that behind it alone,
        since it can as well stand here as later. Those behind operations that end soonest stand last, so that they are
        tried first."""
        states = []
        for at, operation in self.ready(done):
            changed, answer = self.tried(operation, values)
            if operation.answer not in (None, answer):
                continue
            after = (done | 1 << at, changed)
            if changed == values:
                if operation.answer is None:
                    continue
                return [after]
            states.append(after)
        return states[::-1]

    def ready(self, done):
        """The operations that may be next: no other one that is left has ended before they began."""
        left = [(at, operation) for at, operation in enumerate(self.operations) if not done >> at & 1]
        soonest = min(operation.ended for _, operation in left)
        return [(at, operation) for at, operation in left if operation.begun < soonest]

    def tried(self, operation, values):
        """The values behind an operation, and the words of its answer."""
        places = [self.places[known] for known in operation.body.objects]
        before = [(self.kinds[self.objects[place]], values[place]) for place in places]
        behind, answer = performed(before, operation.body)
        changed = list(values)
        for place, value in zip(places, behind, strict=True):
            changed[place] = value
        return tuple(changed), answer_words(answer)

    def why(self):
        """Words: how far the longest order comes, and what it cannot have next."""
        left = [each for at, each in enumerate(self.operations) if (self.must & ~self.best) >> at & 1]
        _, answer = self.tried(left[0], self.values_then)
        objects, asked = ", ".join(map(str, self.objects)), operation_words(left[0].body)
        return (f"no order of the operations on objects {objects} gives the answers: {self.count(self.best)} of "
                f"{self.must.bit_count()} can stand in one, and behind them {left[0].name} ({asked}) would be told "
                f"{answer} and not {left[0].answer}")
