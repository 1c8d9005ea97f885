"""Operations, stamps, answers and states in words. Each call raises WrongWord where a word cannot stand."""
from model.keys import act_digest
from model.kinds import ASKS, METHODS
from model.reading import LAST_CLIENT, LAST_OBJECT
from model.report import REFUSAL_WORDS
from model.script import ARGUMENTS, bytes_of, content_of, name_of, need, number_of
from model.values import (
    BLOB, COUNTER, DIGEST_SIZE, DIR, LAST_TIME, OPENING, Body, Items, KeptRow, Part, RefusedPart, Stamp, State)

BYTES_WORDS = "bytes as two hexadecimal digits each, or `-` for none"
# What the arguments of an operation are, by what reads them.
ARGUMENT_WORDS = {number_of: "a number below 2^64", content_of: BYTES_WORDS, name_of: "a name"}
REFUSAL_NUMBERS = {words: number for number, words in REFUSAL_WORDS.items()}


def read_object(words):
    return words.number("the number of an object", 0, LAST_OBJECT)


def read_name(words, low=1, high=LAST_CLIENT):
    """The client, which is within limits, and the number of an operation."""
    whose = f"client {low}" if low == high else f"a client ({low} to {high})"

    def named(word):
        client, dot, number = word.partition(".")
        need(dot, "bad name")
        return number_of(client, low, high), number_of(number)

    return words.read(named, f"the number of an operation of {whose}, as in `{low}.1`")


def read_part(words, methods):
    """An operation on one object, by one of these methods."""
    method = words.one_of(methods)
    object_number = read_object(words)
    arguments = (words.read(reader, ARGUMENT_WORDS[reader]) for reader in ARGUMENTS[method])
    return Part(object_number, method, tuple(arguments))


def read_parts(words, methods):
    """Operations on one object each, with a `+` between each two."""
    parts = [read_part(words, methods)]
    while words.next_is("+"):
        parts.append(read_part(words, methods))
    return tuple(parts)


def read_act(words):
    return Body("act", read_parts(words, METHODS))


def read_ask(words):
    return Body("query", read_parts(words, ASKS))


# ---- stamps


def digest_of(word):
    digest = bytes_of(word)
    need(len(digest) == DIGEST_SIZE, "over limit")
    return digest


def optional_digest(word):
    return b"" if word == "-" else digest_of(word)


def read_stamp(words, letters, object_number):
    """`opening`, `time T of client C` or `barrier T of client C`, as the letters show it of this object, or with its
    digests behind it. Raises Lacking as Letters.stamp does."""
    kind = words.one_of(("time", "barrier", "opening"))
    if kind == "opening":
        return OPENING
    time = words.number("a time", 1, LAST_TIME)
    words.say("of client")
    fields = time, int(kind == "barrier"), words.number("a client", 1, LAST_CLIENT)
    if not words.next_is("act"):
        return letters.stamp(object_number, *fields)
    act = words.read(optional_digest, "the digest of an act as 64 hexadecimal digits, or `-` for none")
    words.say("sets")
    return Stamp(*fields, act, words.read(digest_of, "the digest of sets as 64 hexadecimal digits"))


def read_stamp_of(words, letters):
    """An object and a stamp of it, as `0 at opening`."""
    object_number = read_object(words)
    words.say("at")
    return object_number, read_stamp(words, letters, object_number)


def read_group(words, object_number, stamp):
    """The group of a candidate of an object: itself, and the times of the candidates that were accepted with it, as
    `with object 1 at 4`, as often as wanted; none where nothing is told."""
    group = {}
    while words.next_is("with object"):
        other = read_object(words)
        words.say("at")
        group[other] = words.number("a time", 1, LAST_TIME)
    return tuple(sorted({**group, object_number: stamp.time}.items())) if group else ()


# ---- answers and states


def entries_of(word):
    """The entries of a directory, by rising names."""
    entries = {}
    for entry in () if word == "-" else word.split(","):
        name, equals, number = entry.partition("=")
        need(equals, "bad name")
        entries[name_of(name)] = number_of(number)
    return tuple(sorted(entries.items()))


def read_entries(words):
    return words.read(entries_of, "entries as NAME=N,.., or `-` for none")


def read_item(words):
    """A number, `bytes HEX` or `listing NAME=N,..`."""
    if words.next_is("bytes"):
        return words.read(content_of, BYTES_WORDS)
    if words.next_is("listing"):
        return read_entries(words)
    return words.number("a number")


def read_answer(words):
    """Items with a `+` between each two, or a refusal of a part, as `over at 0`."""
    for refusal, number in REFUSAL_NUMBERS.items():
        if words.next_is(refusal):
            words.say("at")
            return RefusedPart(words.number("the place of a part", 0, 3), number)
    items = [read_item(words)]
    while words.next_is("+"):
        items.append(read_item(words))
    return Items(tuple(items))


def read_value(words):
    """A kind of objects, and a value of it."""
    kind = words.one_of((COUNTER, BLOB, DIR))
    if kind == COUNTER:
        return kind, words.number("a number")
    return kind, words.read(content_of, BYTES_WORDS) if kind == BLOB else read_entries(words)


def read_row(words):
    """What is kept of a client, as `2.1 add 0 5 with 5`."""
    client, number = read_name(words)
    act = act_digest(client, number, read_act(words))
    words.say("with")
    return client, KeptRow(number, act, read_answer(words))


def read_state(words, letters):
    """A value, and behind it `kept C.N OP with ANSWER` and `link O at STAMP`, as often as wanted."""
    kind, value = read_value(words)
    kept, links = {}, {}
    while words.next_is("kept"):
        client, kept_row = read_row(words)
        kept[client] = kept_row
    while words.next_is("link"):
        object_number, stamp = read_stamp_of(words, letters)
        links[object_number] = stamp
    return State(kind, value, tuple(sorted(kept.items())), tuple(sorted(links.items())))
