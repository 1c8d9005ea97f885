"""Random operations, in the words of a script."""
from model.values import BLOB, COUNTER, DIR, LAST_VALUE

# How often, in a hundred, an operation has several parts, a part is of another kind than its object, or an amount is
# the greatest that there is.
SEVERAL, OTHER_KIND, GREATEST = 25, 3, 2
MOST_PARTS = 4
NAMES = ("a", "b", "c", "d", ".")


def chance(random, percent):
    return random.random() * 100 < percent


def update_of(random, kind, known):
    """An update of an object of this kind."""
    if kind == COUNTER:
        amount = LAST_VALUE if chance(random, GREATEST) else random.randint(1, 9)
        return f"{random.choice(('add', 'add', 'add', 'take'))} {known} {amount}"
    if kind == BLOB:
        return f"{random.choice(('put', 'append', 'append'))} {known} {random.randbytes(random.randint(1, 3)).hex()}"
    name = random.choice(NAMES)
    return f"link {known} {name} {random.randint(0, 9)}" if chance(random, 60) else f"unlink {known} {name}"


def query_of(random, kind, known):
    """A question to an object of this kind."""
    if kind == DIR:
        return f"find {known} {random.choice(NAMES)}" if chance(random, 50) else f"list {known}"
    return f"{'read' if kind == COUNTER else 'cat'} {known}"


def operation_on(random, kinds, objects, is_query):
    """An operation on these objects, which rise, where `kinds` has the kind of each object of the setup."""
    part_of = query_of if is_query else update_of
    parts = []
    for known in objects:
        kind = random.choice((COUNTER, BLOB, DIR)) if chance(random, OTHER_KIND) else kinds[known]
        parts.append(part_of(random, kind, known))
    return " + ".join(parts)


def some_objects(random, kinds):
    """One object or several, rising."""
    count = random.randint(2, MOST_PARTS) if chance(random, SEVERAL) else 1
    return sorted(random.sample(range(len(kinds)), min(count, len(kinds))))


def operation(random, kinds, query_percent=40):
    """An operation, and whether it is a query."""
    is_query = chance(random, query_percent)
    return operation_on(random, kinds, some_objects(random, kinds), is_query)

