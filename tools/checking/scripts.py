"""What is told of scripts: the words by which one is refused, the topics of stored cases, and the examples."""
import os
import re

from checking.texts import CASES, EXAMPLES, PROTOCOL, README, TESTING, TOP, joined, section

REFUSALS = "crates/qu_cli/src/refusal.rt"


def check_refusals(texts):
    """That the pages on scripts have the words of each refusal."""
    for words in re.findall(r'BadKind::\w+ => "([a-z ]+)"', texts[REFUSALS]):
        for doc in (README, PROTOCOL):
            # the first of four that differ in their last word alone may stand for them
            short = re.sub(r"^expected ", "", words)
            if f"`{words}`" not in joined(texts[doc]) and f"`{short}`" not in texts[doc]:
                yield doc, 1, f"has no refusal `{words}`"


def check_topics(texts):
    """That the page on tests has each topic, and that the counts of all are as stored."""
    topics = texts[CASES + "stdin"].split()
    table, line = section(texts[TESTING], "## A topic")
    told = {name for row in re.findall(r"(?m)^\| (`[^|]*) \|", table.split("| command |")[0])
            for name in re.findall(r"`([a-z-]+)`", row)}
    for topic in topics:
        if topic not in told:
            yield TESTING, line, f"has no topic {topic}"
    if texts[CASES + "stdout"].splitlines() != [counted(topic) for topic in topics]:
        yield CASES + "stdout", 1, "does not count the cases of the topics that stdin lists, in their order"


def counted(topic):
    """The line of a topic all of whose cases are as stored."""
    try:
        with open(os.path.join(TOP, EXAMPLES, "cases", topic), encoding="utf-8") as lines:
            return f"{topic}: {sum(line.startswith('== ') for line in lines)} cases, as stored"
    except FileNotFoundError:
        return f"{topic}: there is no such file"


def check_examples(texts):
    """That each example has its heading on the page of examples, and its report."""
    page = EXAMPLES + "README.md"
    told = re.findall(r"(?m)^## `([a-z-]+)`", texts[page])
    there = {name for name in os.listdir(os.path.join(TOP, EXAMPLES)) if "." not in name} - {"cases"}
    for name in sorted(there - set(told)):
        yield page, 1, f"says nothing of {name}"
    for name in told:
        if name not in there:
            yield page, 1, f"tells of {name}, which does not exist"
        elif not os.path.exists(os.path.join(TOP, EXAMPLES, name + ".report")):
            yield page, 1, f"there is no {name}.report"
