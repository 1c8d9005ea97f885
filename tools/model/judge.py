"""What the judge says of the points of a run: that they are a serial order, or the first fault."""
from model.kinds import FRESH, performed


def ran(points, kinds):
    """The values of the machine that ran the points one after another, and its answer at each of them."""
    values, answers = [FRESH[kind] for kind in kinds], []
    for point in points:
        objects = point.body.objects
        changed, answer = performed([(kinds[known], values[known]) for known in objects], point.body)
        for known, value in zip(objects, changed, strict=True):
            values[known] = value
        answers.append(answer)
    return values, answers


def verdict_on(points, world):
    """Words: `serial`, that events do not rise, or the first fault with the index of its point or operation."""
    if any(one.event >= other.event for one, other in zip(points, points[1:])):
        return "not judgeable"
    judge = Judge(points, world)
    for name, what, faults in (("Differs", "at", judge.differing), ("Outside", "at", judge.outside),
                               ("Twice", "at", judge.twice), ("Absent", "op", judge.absent)):
        first = next(faults(), None)
        if first is not None:
            return f"{name} {{ {what}: {first} }}"
    return "serial"


class Judge:
    """Points, and the operations of a world with their ends. Each call gives the indices of what is at fault."""

    def __init__(self, points, world):
        self.points, self.operations = points, world.operations
        self.ends, self.kinds = world.ends, world.setup.kinds

    def end_of(self, operation):
        """The end of an operation that has an answer, or None."""
        end = self.ends.get((operation.client, operation.number))
        return end if end is not None and end.answer is not None else None

    def operations_at(self, point):
        """The operations of a correct client that this is the point of."""
        return [operation for operation in self.operations if not point.faulty and point[1:4] == operation[:3]]

    def differing(self):
        """Points of operations that have another answer than the machine gives along the order."""
        _, answers = ran(self.points, self.kinds)
        for at, (point, answer) in enumerate(zip(self.points, answers, strict=True)):
            ends = map(self.end_of, self.operations_at(point))
            if any(end is not None and end.answer != answer for end in ends):
                yield at

    def outside(self):
        """Points of no operation, or before its call, or behind its end; marked ones that are no update."""
        for at, point in enumerate(self.points):
            mine = self.operations_at(point)
            if point.faulty:
                is_outside = point.body.kind == "query"
            else:
                is_outside = not mine or not all(self.is_between(operation, point) for operation in mine)
            if is_outside:
                yield at

    def is_between(self, operation, point):
        end = self.end_of(operation)
        return operation.event < point.event and (end is None or point.event < end.event)

    def twice(self):
        """Points that tell of the same as an earlier one."""
        for at, point in enumerate(self.points):
            if any(other[1:] == point[1:] for other in self.points[:at]):
                yield at

    def absent(self):
        """Operations that have an answer and no point."""
        for at, operation in enumerate(self.operations):
            if self.end_of(operation) and not any(operation in self.operations_at(point) for point in self.points):
                yield at
