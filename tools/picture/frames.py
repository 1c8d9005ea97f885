"""The frames of a listing, in the forms of docs/letters.md."""
import re
from dataclasses import dataclass


# No number that is written has more digits.
NUM = r"\d{1,20}"


def count_of(word):
    """The form of a number of things, by its word for one of them."""
    return rf"(?:1 {word}|(?!1 ){NUM} {word}s)"


NAME = r"(?:(?:[A-Za-z0-9._-]|%[0-9a-f]{2})+|%)"
CONTENT = r"(?:(?:[0-9a-f]{2})+|-)"
LISTING = rf"(?:{NAME}={NUM}(?:,{NAME}={NUM})*|-)"
PART = (rf"(?:(?:add|take) {NUM} {NUM}|(?:read|cat|list) {NUM}|(?:put|append) {NUM} {CONTENT}"
        rf"|link {NUM} {NAME} {NUM}|(?:unlink|find) {NUM} {NAME})")
OPERATION = rf"{PART}(?: \+ {PART})*"
ITEM = rf"(?:{NUM}|{CONTENT}|{LISTING}|[a-z][a-z ]* at {NUM})"
ANSWER = rf"{ITEM}(?: \+ {ITEM})*"
STAMP = rf"(?:time {NUM} of client {NUM}|barrier {NUM} of client {NUM}|opening)"
CLASS = r"(?:inline method|copy|inline barrier|barrier|needs)"
REFUSAL = (rf"(?:(?:history full|thin|needs|stale|time spent|unknown object|sound) {NUM}|spent {NUM} at {NUM}"
           rf"|not current {NUM} latest {STAMP}|not of class METHOD {NUM} but {CLASS})")
VERDICT = (rf"(?:(?:done|told) {ANSWER}(?:, object {NUM} at {STAMP})*|already {ANSWER}|mended {NUM} at {STAMP}"
           rf"|{REFUSAL})")
SETS = rf"(?:, object {NUM} shown by (?:none|{NUM}(?: {NUM})*))*"
CULLED = rf"(?:, culled object {NUM} of replica {NUM})*"
SHOWN = rf"(?:, shows object {NUM} with {count_of('candidate')})*"
REQUEST = re.compile(rf"request ({NUM}\.{NUM}) round ({NUM}), (act|query|mend object {NUM}){SETS}")
REPLY = re.compile(rf"reply ({NUM}\.{NUM}) round ({NUM}), ({VERDICT})({CULLED}){SHOWN}")
FETCH = re.compile(rf"fetch object {NUM} at {STAMP}")
VALUE = rf"(?:counter {NUM}|blob {CONTENT}|dir {LISTING})"
FETCHED = re.compile(rf"fetched object {NUM} at {STAMP}, {VALUE}, {count_of('client')}, {count_of('link')}")


@dataclass(frozen=True)
class Frame:
    """A frame: its kind is request, reply, fetch, fetched or none; the other fields are empty where it has none."""

    kind: str
    text: str
    operation: str = ""
    round: int = 0
    body: str = ""
    verdict: str = ""
    culled: tuple = ()

    @property
    def stamp(self):
        """The stamp that a verdict tells first, or nothing."""
        found = re.search(rf"(?:at|latest) ({STAMP})", self.verdict)
        return found.group(1) if found else ""


def frame_of(text):
    """The frame of these words, or None where they have no known form."""
    if text == "no frame":
        return Frame("none", text)
    asked = REQUEST.fullmatch(text)
    if asked:
        return Frame("request", text, asked.group(1), int(asked.group(2)), asked.group(3))
    told = REPLY.fullmatch(text)
    if told:
        culled = tuple(re.findall(r"replica (\d+)", told.group(4)))
        return Frame("reply", text, told.group(1), int(told.group(2)), verdict=told.group(3), culled=culled)
    for kind, form in (("fetched", FETCHED), ("fetch", FETCH)):
        if form.fullmatch(text):
            return Frame(kind, text)
    return None
