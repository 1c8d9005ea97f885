"""Digests, the keys of pairs of parties, and HMACs."""
import hashlib
import hmac

from model.reading import signed_frame
from model.values import DIGEST_SIZE, NO_DIGEST, Party, Sealed, sender_of
from model.writing import u8, u16, u64, write_frame, write_histories, write_history, write_parts

ACT_TAG, SETS_TAG, HISTORY_TAG, FRAME_TAG = 1, 2, 3, 4
PARTY_CODES = {"r": 0, "c": 1}


def digest(tag, text):
    return hashlib.sha256(u8(tag) + text).digest()


def act_digest(client, number, body):
    return digest(ACT_TAG, u16(client) + u64(number) + write_parts(body.parts))


def sets_digest(sets):
    return digest(SETS_TAG, write_histories(sets))


def history_digest(history):
    return digest(HISTORY_TAG, write_history(history))


def hmac_of(key, text):
    return hmac.digest(key, text, "sha256")


class Keys:
    """The keys of a setup: each pair of parties has one that the seed gives, but for two clients."""

    def __init__(self, seed, bounds, clients):
        self.seed, self.replicas, self.clients, self.made = u64(seed), bounds.replicas, clients, {}

    def exists(self, party):
        """Whether the setup has this party."""
        if party.kind == "r":
            return 0 <= party.number < self.replicas
        return 1 <= party.number <= self.clients

    def key(self, one, other):
        codes = sorted(u8(PARTY_CODES[party.kind]) + u16(party.number) for party in (one, other))
        pair = codes[0] + codes[1]
        if pair not in self.made:
            self.made[pair] = hmac_of(self.seed, b"qu-key" + pair)
        return self.made[pair]

    def frame_hmac(self, text, sender, receiver):
        """The HMAC of a frame, of which `text` are the bytes before its HMAC."""
        return hmac_of(self.key(sender, receiver), digest(FRAME_TAG, text))

    def signed(self, frame, sender, receiver):
        """All bytes of a frame, with the HMAC of its sender for its receiver."""
        text = write_frame(frame)
        return text + self.frame_hmac(text, sender, receiver)

    def frame_for(self, receiver, text):
        """The frame that a text brings to a party, or None: it is decoded, and its HMAC is right for the party."""
        found = signed_frame(text)
        if found is None:
            return None
        frame, told = found
        sender = sender_of(frame)
        if not self.exists(sender) or sender.kind == receiver.kind == "c":
            return None
        return frame if self.frame_hmac(text[:-DIGEST_SIZE], sender, receiver) == told else None

    def sealing_key(self, history, reader):
        """The key of the HMAC that a history has for a replica."""
        return self.key(Party("r", history.replica), Party("r", reader))

    def sealed(self, history, readers=None):
        """A history with its HMACs; where `readers` are given, those for other replicas are zero bytes."""
        told = history_digest(history)
        return Sealed(history, tuple(
            hmac_of(self.sealing_key(history, reader), told) if readers is None or reader in readers else NO_DIGEST
            for reader in range(self.replicas)))

    def stays(self, entry, reader):
        """Whether an entry stays in the sets that this replica culls."""
        if entry.history.replica >= self.replicas or len(entry.hmacs) != self.replicas:
            return False
        return hmac_of(self.sealing_key(entry.history, reader), history_digest(entry.history)) == entry.hmacs[reader]
