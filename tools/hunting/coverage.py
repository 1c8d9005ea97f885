"""What occurred in a run: classes of objects, rows by which replicas answered, fetches, rounds and rests."""
from collections import Counter

from model.classes import classify
from model.listed_frames import CLASS_WORDS, REFUSAL_WORDS
from model.values import METHOD, NOT_METHOD, Already, Done, Fetch, Fetched, Mended, Told

from hunting.decoded import decoded
from hunting.front import KeepingWorld

CLASSES = {METHOD: "method", **CLASS_WORDS}
# Rounds are told one by one up to this, and then together.
FEW_ROUNDS = 4


class SeenWorld(KeepingWorld):
    """A world that counts in `seen` what occurs."""

    def __init__(self, setup):
        super().__init__(setup)
        self.seen, self.stands = Counter(), {}

    # ---- replicas

    def step_replica(self, replica, text):
        lengths = {known: len(history.candidates) for known, history in replica.histories.items()}
        sent, answers = len(self.letters), {version: len(by) for version, by in replica.fetching.items()}
        super().step_replica(replica, text)
        grown = [known for known, history in replica.histories.items() if len(history.candidates) > lengths[known]]
        frames = [decoded(each.letter.text) for each in self.letters[sent:]]
        for handled in replica.handled:
            self.note_handled(handled, grown, frames)
        self.note_version(replica, text, frames, answers)

    def note_handled(self, handled, grown, frames):
        sets = {part.object: () for part in handled.request.sets}
        for entry in handled.kept:
            sets[entry.history.object] += (entry,)
        classes = {}
        if all(len(entries) >= self.bounds.quorum for entries in sets.values()):
            classes = {known: CLASSES[classify(sets, known, self.bounds).code] for known in sets}
            self.seen.update(f"class {words}" for words in classes.values())
        self.seen["culled entries"] += sum(len(part.entries) for part in handled.request.sets) > len(handled.kept)
        kind = handled.request.body.kind
        self.seen[f"{kind}: {self.row(handled.request, classes, grown, frames)}"] += 1

    def row(self, request, classes, grown, frames):
        """The row by which a replica answered a request."""
        found = f", {classes.get(request.body.target)}" if request.body.kind == "mend" else ""
        if not frames or isinstance(frames[0], Fetch):
            return f"waits{found}"
        verdict = frames[0].verdict
        if isinstance(verdict, Done):
            return "done" if grown else "done before, kept answer"
        if isinstance(verdict, (Told, Already)):
            return "told" if isinstance(verdict, Told) else "already"
        if isinstance(verdict, Mended):
            together = f" on {len(grown)} objects" if len(grown) > 1 else ""
            return f"mended{found}{together}" if grown else "held"
        return "not of class method" if verdict.number == NOT_METHOD else REFUSAL_WORDS[verdict.number]

    def note_version(self, replica, text, frames, answers):
        """Counts a fetch and a version that came; `answers` has how many answers each fetch had before."""
        frame = self.keys.frame_for(replica.party, text)
        if isinstance(frame, Fetch):
            self.seen["fetch: answered" if frames else "fetch: version not held"] += 1
        elif isinstance(frame, Fetched):
            version = (frame.object, frame.stamp)
            now = len(replica.fetching.get(version, ()))
            how = "not counted" if answers.get(version, 0) == now else "counted" if now else "found"
            self.seen[f"version: {how}"] += 1

    # ---- clients

    def invoke(self, number, body):
        super().invoke(number, body)
        self.seen[f"call of {len(body.parts)} part{'s' if len(body.parts) > 1 else ''}"] += 1
        self.stands[number] = (1, 0, 0, 0)

    def end_client_event(self, client, letters):
        super().end_client_event(client, letters)
        before = self.stands.get(client.me, (0, 0, 0, 0))
        stand = (client.round, client.rest, len(client.left_out), len(client.added))
        self.stands[client.me] = stand
        for words, is_so in (("rests", stand[1] and not before[1]), ("leaves entries out", stand[2] > before[2]),
                             ("shows more objects", stand[3] > before[3])):
            self.seen[f"client {words}"] += bool(is_so)
        if letters and client.request is not None:
            self.note_request(client)
        if client.ended is not None:
            rounds = str(client.round) if client.round <= FEW_ROUNDS else f"more than {FEW_ROUNDS}"
            how = "given up" if client.ended.answer is None else f"answered, rounds: {rounds}"
            self.seen[f"operation {how}"] += 1

    def note_request(self, client):
        self.seen[f"client asks: {client.request.body.kind}"] += 1
        trimmed = any(len(part.entries) < len(client.kept(part.object)) for part in client.request.sets)
        self.seen["client trims"] += trimmed


def told_table(seen, runs_with):
    """Lines of a table of what occurred, with how often and in how many runs."""
    names = [name for name in sorted(seen) if seen[name]]
    width = max(map(len, names), default=0)
    return [f"  {name:<{width}} {seen[name]:>9} in {runs_with[name]} runs" for name in names]
