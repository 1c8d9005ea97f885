"""Verdicts of replicas in words, as listings have them."""
from model.listed_frames import CLASS_WORDS, REFUSAL_WORDS
from model.values import NOT_CURRENT, NOT_METHOD, SPENT, Already, Done, Mended, Refusal, Told
from making.values import read_answer, read_object, read_stamp, read_stamp_of

CLASS_CODES = {words: code for code, words in CLASS_WORDS.items()}
REFUSALS = {**{words: number for number, words in REFUSAL_WORDS.items()}, "not of class METHOD": NOT_METHOD}
VERDICTS = ("done", "told", "already", "mended", *REFUSALS)


def read_stamps(words, letters):
    """Pairs of an object and a stamp, one at least, objects rising."""
    words.say("object")
    stamps = [read_stamp_of(words, letters)]
    while words.next_is("object"):
        stamps.append(read_stamp_of(words, letters))
    return tuple(sorted(stamps))


def read_refusal(words, letters, number):
    """What a refusal with this number is about, and what it carries."""
    object_number, carried = read_object(words), None
    if number == NOT_CURRENT:
        words.say("latest")
        carried = read_stamp(words, letters, object_number)
    elif number == NOT_METHOD:
        words.say("but")
        carried = CLASS_CODES[words.one_of(CLASS_CODES)]
    elif number == SPENT:
        words.say("at")
        carried = words.number("the number of an operation")
    return Refusal(number, object_number, carried)


def read_verdict(words, letters):
    """A verdict. Raises WrongWord, and Lacking where the letters do not show a stamp of it."""
    said = words.one_of(VERDICTS)
    if said in REFUSALS:
        return read_refusal(words, letters, REFUSALS[said])
    if said == "mended":
        return Mended(*read_stamp_of(words, letters))
    answer = read_answer(words)
    if said == "already":
        return Already(answer)
    return (Done if said == "done" else Told)(read_stamps(words, letters), answer)
