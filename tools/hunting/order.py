"""Whether the points of a report are a serial order: between call and reply, each once, and with the answers told."""
from model.kinds import FRESH, performed
from model.report import answer_words, operation_words


def fault_in(report, kinds):
    """None where the points of a report are a serial order of its operations, else words that tell the first fault."""
    values, seen = [FRESH[kind] for kind in kinds], set()
    for point in report.points:
        operation = report.operations.get(point.name) if point.body is None else None
        mark = (point.name, None if point.body is None else operation_words(point.body))
        if mark in seen:
            return f"{point.name} has two points"
        seen.add(mark)
        misplaced = place_fault(point, operation)
        if misplaced:
            return misplaced
        body = point.body or operation.body
        before = [(kinds[known], values[known]) for known in body.objects]
        behind, answer = performed(before, body)
        for known, value in zip(body.objects, behind, strict=True):
            values[known] = value
        told = answer_words(answer)
        if operation is not None and operation.answer not in (None, told):
            return f"along the points {point.name} is told {told}, and its reply is {operation.answer}"
    return next((f"{name} has a reply and no point" for name, operation in report.operations.items()
                 if operation.answer is not None and (name, None) not in seen), None)


def place_fault(point, operation):
    """Words where a point cannot be one of its operation, or None."""
    if point.body is not None:
        return f"{point.name} is of a faulty client, and no update" if point.body.kind == "query" else None
    if operation is None:
        return f"{point.name} has a point and no call"
    if point.place < operation.begun:
        return f"the point of {point.name} stands before its call"
    if operation.answer is not None and operation.ended < point.place:
        return f"the point of {point.name} stands behind its reply"
    if operation.answer is None and operation.body.kind == "query":
        return f"{point.name} is a query without a reply, and has a point"
    return None
