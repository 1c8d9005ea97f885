"""Frames of a party for another one, in words. Each call raises WrongWord where a word cannot stand, and Lacking where
the letters lack what it asks for."""
from model.keys import Keys
from model.reading import LAST_REPLICA, Unread, read_frame
from model.values import (
    LAST_ROUND, NO_DIGEST, Body, Candidate, Fetch, Fetched, History, ObjectSet, Party, Reply, Request, Sealed)
from making.values import (
    read_act, read_ask, read_group, read_name, read_object, read_stamp, read_stamp_of, read_state)
from making.verdicts import read_verdict
from making.words import WrongWord


class Making:
    """Makes frames: `setup` is that of a script, `letters` are those of a run."""

    def __init__(self, setup, letters):
        self.bounds, self.clients, self.letters = setup.bounds, setup.clients, letters
        self.keys = Keys(setup.seed, setup.bounds, setup.clients)

    def make(self, words):
        """All bytes of the frame that words ask for, from one party to another."""
        sender = self.read_party(words, ("client", "replica"))
        words.say("to")
        receiver = self.read_party(words, ("replica",) if sender.kind == "c" else ("client", "replica"))
        frame = self.read_sent(words, sender, receiver)
        words.end()
        try:
            text = self.keys.signed(frame, sender, receiver)
            read_frame(text)
        except (OverflowError, Unread) as why:
            raise WrongWord(f"these words make no frame that a party could read: {why}") from None
        return text

    def read_party(self, words, kinds):
        """A party of the setup, of one of these kinds."""
        if words.one_of(kinds) == "replica":
            return Party("r", self.read_replica(words))
        return Party("c", words.number("a client", 1, self.clients))

    def read_replica(self, words):
        return words.number("a replica", 0, self.bounds.replicas - 1)

    def read_sent(self, words, sender, receiver):
        """What a party sends to another one."""
        if sender.kind == "c":
            words.say("request")
            return self.read_request(words, sender.number)
        if receiver.kind == "c":
            words.say("reply")
            return self.read_reply(words, sender.number)
        said = words.one_of(("fetch", "fetched"))
        words.say("object")
        version = read_stamp_of(words, self.letters)
        if said == "fetch":
            return Fetch(sender.number, *version)
        return Fetched(sender.number, *version, read_state(words, self.letters))

    @staticmethod
    def read_round(words):
        """The round that is told, or else the first one."""
        return words.number("a round", 1, LAST_ROUND) if words.next_is("round") else 1

    # ---- requests

    def read_request(self, words, client):
        """What a client asks, upon sets, which have no entry where none are told."""
        _, number = read_name(words, client, client)
        asked_in, kind = self.read_round(words), words.one_of(("act", "ask", "query", "mend"))
        if kind == "mend":
            words.say("object")
            body = Body("mend", target=read_object(words))
        else:
            body = read_act(words) if kind == "act" else read_ask(words)
        sets = {}
        while words.next_is("object"):
            part = self.read_set(words)
            sets[part.object] = part
        for known in () if sets else [body.target] if kind == "mend" else body.objects:
            sets[known] = ObjectSet(known, ())
        return Request(client, number, asked_in, tuple(part for _, part in sorted(sets.items())), body)

    def read_set(self, words):
        """The entries of an object: the histories that these replicas showed last, and how they are changed."""
        object_number, entries = read_object(words), {}
        words.say("shown by")
        if not words.next_is("none"):
            for replica in words.numbers("a replica", 0, self.bounds.replicas - 1):
                entries[replica] = self.letters.history(replica, object_number)
        while entries and words.next_is("replica"):
            replica = int(words.one_of(map(str, sorted(entries))))
            entries[replica] = self.read_entry(words, entries[replica])
        return ObjectSet(object_number, tuple(entry for _, entry in sorted(entries.items())))

    def read_entry(self, words, entry):
        """An entry that is changed. Its HMACs stay as they were shown where it is not sealed anew."""
        entry = self.read_letter(words, entry)
        history = self.read_changes(words, entry.history)
        is_sealed = words.next_is("sealed")
        return self.read_zeroed(words, self.keys.sealed(history) if is_sealed else Sealed(history, entry.hmacs))

    # ---- replies

    def read_reply(self, words, replica):
        """What a replica answers: a verdict, what it left out, and what it shows as its own histories."""
        client, number = read_name(words)
        asked_in, verdict = self.read_round(words), read_verdict(words, self.letters)
        culled, shown = set(), {}
        while words.next_is("culled object"):
            object_number = read_object(words)
            words.say("of replica")
            culled.add((object_number, words.number("a replica", 0, LAST_REPLICA)))
        while words.next_is("shows object"):
            object_number = read_object(words)
            shown[object_number] = self.read_shown(words, replica, object_number)
        histories = tuple(entry for _, entry in sorted(shown.items()))
        return Reply(replica, client, number, asked_in, verdict, tuple(sorted(culled)), histories)

    def read_shown(self, words, replica, object_number):
        """A history of an object in a replica's name, which it seals: the opening one, or that of another replica."""
        history = History(object_number, replica)
        if words.next_is("as replica"):
            entry = self.letters.history(self.read_replica(words), object_number)
            history = self.read_letter(words, entry).history.of_replica(replica)
        return self.read_zeroed(words, self.keys.sealed(self.read_changes(words, history)))

    # ---- histories

    def read_letter(self, words, entry):
        """An entry, or the one of its object and replica that the letter shows which is told."""
        if not words.next_is("in letter"):
            return entry
        letter = words.number("the number of a letter", 1)
        return self.letters.history(entry.history.replica, entry.history.object, letter)

    def read_changes(self, words, history):
        """A history that is cut to its first candidates, and to which candidates are added."""
        if words.next_is("cut to"):
            count = words.number("how many candidates", 1, len(history.candidates))
            history = History(history.object, history.replica, history.candidates[:count])
        while words.next_is("then"):
            stamp = read_stamp(words, self.letters, history.object)
            words.say("on")
            prior = read_stamp(words, self.letters, history.object)
            history = history.with_candidate(Candidate(stamp, prior, read_group(words, history.object, stamp)))
        return history

    def read_zeroed(self, words, entry):
        """An entry with zero bytes in the place of its HMACs for the replicas that are told."""
        if not words.next_is("zero for"):
            return entry
        readers = words.numbers("a replica", 0, len(entry.hmacs) - 1)
        hmacs = (NO_DIGEST if reader in readers else hmac for reader, hmac in enumerate(entry.hmacs))
        return Sealed(entry.history, tuple(hmacs))
