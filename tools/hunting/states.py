"""What a party holds behind an event of a run, in words, by the model."""
from model.classes import classify
from model.listed_frames import CLASS_WORDS, counted, listed_frame, listed_stamp, listed_verdict
from model.player import Player
from model.report import answer_words, operation_words
from model.script import read_script
from model.told_frames import told_value
from model.values import METHOD, NEEDS, OPENING
from model.world import World

CLASSES = {METHOD: "METHOD", **CLASS_WORDS}
# So many digits of a digest tell stamps apart that read alike.
DIGITS = 6


class Reached(Exception):
    """The event that was wanted has happened."""


class StoppingWorld(World):
    """A world that goes no further than an event."""

    last = None

    def begin_event(self):
        if self.events == self.last:
            raise Reached
        super().begin_event()


def world_behind(data, event):
    """The world behind this event, or that of the whole run, where it has fewer events. Raises Refused."""
    script = read_script(data)
    world = StoppingWorld(script.setup)
    world.last, player = event, Player(world)
    try:
        for line in script.lines:
            player.play(line.word, line.needs)
    except Reached:
        pass
    return world


def stamp_words(stamp):
    """A stamp, with the first digits of its digests."""
    if stamp == OPENING:
        return "opening"
    act = f"act {stamp.act.hex()[:DIGITS]}, " if stamp.act else ""
    return f"{listed_stamp(stamp)} ({act}sets {stamp.sets.hex()[:DIGITS]})"


def candidate_words(candidate):
    if candidate.stamp == OPENING:
        return "opening"
    group = ", ".join(f"object {known} at {time}" for known, time in candidate.group)
    return f"{stamp_words(candidate.stamp)} on {stamp_words(candidate.prior)}" + (f", with {group}" if group else "")


def version_lines(state):
    """The value of a version, what it keeps of clients, and its links."""
    rows = [f"keeps of client {client} update {client}.{row.number}, answered {answer_words(row.answer)}"
            for client, row in state.kept]
    links = [f"link to object {known} at {stamp_words(stamp)}" for known, stamp in state.links]
    return [f"version {told_value(state)}", *rows, *links]


def replica_lines(replica):
    """Histories with the versions of their candidates, versions that no candidate has, what waits, and what is
    fetched."""
    lines, shown = [], set()
    for known, history in sorted(replica.histories.items()):
        lines.append(f"object {known}, a {replica.kinds[known]}, history of {len(history.candidates)}:")
        for candidate in history.candidates:
            lines.append(f"  {candidate_words(candidate)}")
            state = replica.versions.get((known, candidate.stamp))
            shown.add((known, candidate.stamp))
            lines += [f"    {line}" for line in version_lines(state)] if state else []
    for known, stamp in sorted(set(replica.versions) - shown):
        lines.append(f"besides a version of object {known} at {stamp_words(stamp)}:")
        lines += [f"    {line}" for line in version_lines(replica.versions[known, stamp])]
    for client, waiting in sorted(replica.waiting.items()):
        lacks = ", ".join(f"object {known} at {stamp_words(stamp)}" for known, stamp in waiting.missing)
        lines += [f"waits: {listed_frame(waiting.request)}", f"    lacks {lacks}"]
    for (known, stamp), sent in sorted(replica.fetching.items()):
        answers = " ".join(map(str, sorted(sent))) or "none so far"
        lines.append(f"fetches object {known} at {stamp_words(stamp)}, answered by {answers}")
    return lines


def client_lines(client):
    """The operation under way with its round, and the sets that are kept, with the class of each object by them."""
    lines = operation_lines(client) if client.operation is not None else [f"no operation, {client.number} so far"]
    objects = sorted({known for known, _ in client.entries})
    sets = {known: tuple(entry.sealed for entry in client.kept(known).values()) for known in objects}
    full = {known: entries for known, entries in sets.items() if len(entries) >= client.bounds.quorum}
    for known in objects:
        told = "too few for a class"
        if known in full:
            found = classify(full, known, client.bounds)
            needs = f" object {found.needed}" if found.code == NEEDS else ""
            told = f"class {CLASSES[found.code]}{needs}, latest {stamp_words(found.latest)}"
        lines.append(f"object {known}, histories of {len(sets[known])} replicas, {told}:")
        for place, entry in sorted(client.entries.items()):
            if place[0] == known:
                number, in_round = entry.told_in
                out = ", left out" if entry in client.left_out else ""
                lines.append(f"  replica {place[1]}, told in {client.me}.{number} round {in_round}{out}:")
                lines += [f"    {candidate_words(candidate)}" for candidate in entry.sealed.history.candidates]
    return lines


def operation_lines(client):
    """The operation under way: its round, what it asks of whom, and which replies count."""
    rest = f", rests {counted(client.rest, 'tick')}" if client.rest else ""
    lines = [f"operation {client.me}.{client.number} {operation_words(client.operation)}, round {client.round}{rest}"]
    if client.request is not None:
        asked = " ".join(map(str, sorted(client.asked)))
        lines.append(f"asked replicas {asked}: {listed_frame(client.request)}")
        lines += [f"  replica {replica} replied: {listed_verdict(reply.verdict)}"
                  for replica, reply in sorted(client.counted.items())]
    if client.added:
        lines.append(f"shows objects too: {' '.join(map(str, sorted(client.added)))}")
    return lines


def state_lines(world, party):
    """What a correct party of a world holds."""
    if party.kind == "r":
        return replica_lines(world.replicas[party.number])
    return client_lines(world.clients[party.number])
