"""What a script expects of its run, in comment lines `# expect ..`, and what happened."""
import re

EXPECT = re.compile(r" *# *expect +(no +)?(.*?) *")


def expectation(line):
    """Whether a line expects that something happens, or that it does not, and what; None for other lines."""
    found = EXPECT.fullmatch(line)
    return (found[1] is None, " ".join(found[2].split())) if found else None


def looked_at(text, told):
    """Lines that say which expectations of a script are not met, where `told` has a Happened for each line that makes
    events."""
    by_line, faults, above = {each.number: each.words for each in told}, [], None
    for number, line in enumerate(text.splitlines(), 1):
        if number in by_line:
            above = number
        expected = expectation(line)
        if expected is None:
            continue
        happens, words = expected
        if above is None:
            faults.append(f"line {number}: nothing has happened so far that could be {words}")
        elif (words in by_line[above]) != happens:
            what = "; ".join(by_line[above]) or "nothing that could be expected"
            said = "is expected" if happens else "is not expected"
            faults.append(f"line {number}: {words} {said} at line {above}, where this happens: {what}")
    return faults


def with_happenings(text, told):
    """A script that expects just what happened, behind each line that makes events."""
    by_line = {each.number: each.words for each in told}
    lines = []
    for number, line in enumerate(text.splitlines(), 1):
        if expectation(line) is None:
            lines.append(line)
        lines += [f"# expect {words}" for words in by_line.get(number, ())]
    return "".join(f"{line}\n" for line in lines)
