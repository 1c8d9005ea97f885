"""A correct replica: what it makes of the bytes that reach it."""
from typing import NamedTuple, Optional

from model.keys import act_digest, sets_digest
from model.kinds import FRESH, performed
from model.plans import Plans
from model.values import (
    BARRIER, COPY, HISTORY_FULL, INLINE_BARRIER, INLINE_METHOD, LAST_TIME, METHOD, MOST_CANDIDATES, NEEDED, NOT_CURRENT,
    NOT_METHOD, OPENING, SOUND, SPENT, THIN, TIME_SPENT, UNKNOWN_OBJECT, Already, Candidate, Done, Fetch, Fetched,
    History, KeptRow, Letter, Mended, ObjectSet, Party, Refusal, Reply, Request, Stamp, State, Told)
from model.writing import write_state


class Waiting(NamedTuple):
    """A request that lacks versions: these, as pairs of an object and a stamp."""

    request: Request
    missing: tuple


class Missing(NamedTuple):
    """In the place of a verdict: the versions that a request lacks."""

    versions: tuple


class Handled(NamedTuple):
    """A request of known objects that was handled, and the entries that culling left."""

    request: Request
    kept: tuple


class Given(NamedTuple):
    """What the sets of a request tell once they are culled: the entries of each object that is shown, their digest, and
    what the plans of copies are."""

    request: Request
    sets: dict
    digest: bytes
    plans: Plans


class Addition(NamedTuple):
    """A candidate that is added on an object; whether it is made there or was found in the sets; and the stamp of the
    version that it takes, or None where it is a barrier."""

    object: int
    candidate: Candidate
    is_fresh: bool
    wanted: Optional[Stamp]


def grouped(candidates):
    """Candidates by object, each with the group of all of them, where there are two or more."""
    group = tuple((known, candidate.stamp.time) for known, candidate in candidates.items())
    if len(group) < 2:
        return candidates
    return {known: candidate._replace(group=group) for known, candidate in candidates.items()}


def linked(state, known, candidate):
    """A state with links to the other objects of a candidate's group."""
    return state.linked(candidate.stamp, [other for other, _ in candidate.group if other != known])


def keeps(row, number, act):
    """Whether a kept row is of exactly this act."""
    return row is not None and (row.number, row.act) == (number, act)


class Replica:
    """A replica's histories by object, its versions by object and stamp, and what it waits for.

    `kinds` are the objects' kinds. `waiting` has a Waiting for each client at most; `fetching` has, of each version
    that is fetched, the bytes that each replica sent. `handled` is what the last step handled.
    """

    def __init__(self, number, keys, bounds, kinds):
        self.number, self.keys, self.bounds, self.kinds = number, keys, bounds, kinds
        self.party = Party("r", number)
        self.histories = {known: History(known, number) for known in range(len(kinds))}
        self.versions = {(known, OPENING): State(kind, FRESH[kind]) for known, kind in enumerate(kinds)}
        self.waiting, self.fetching, self.handled = {}, {}, []

    def step(self, text):
        """Takes bytes, and gives the letters that it sends."""
        self.handled = []
        frame = self.keys.frame_for(self.party, text)
        if isinstance(frame, Request):
            return self.handle(frame)
        if isinstance(frame, Fetch):
            return self.answer_fetch(frame)
        if isinstance(frame, Fetched):
            return self.count_fetched(frame)
        return []

    def letter(self, frame, receiver):
        return Letter(self.party, receiver, self.keys.signed(frame, self.party, receiver))

    # ---- versions that are fetched

    def answer_fetch(self, fetch):
        state = self.versions.get((fetch.object, fetch.stamp))
        if state is None:
            return []
        return [self.letter(Fetched(self.number, fetch.object, fetch.stamp, state), Party("r", fetch.replica))]

    def count_fetched(self, fetched):
        """Stores a version once enough replicas sent the same, and handles anew a request that lacks it."""
        version = (fetched.object, fetched.stamp)
        sent = self.fetching.get(version)
        if sent is None or fetched.state.kind != self.kinds[fetched.object] or fetched.replica in sent:
            return []
        text = sent[fetched.replica] = write_state(fetched.state)
        if sum(other == text for other in sent.values()) < self.bounds.faults + 1:
            return []
        del self.fetching[version]
        self.versions.setdefault(version, fetched.state)
        clients = [client for client, waiting in self.waiting.items() if version in waiting.missing]
        return self.handle(self.waiting.pop(min(clients)).request) if clients else []

    def wait(self, request, missing):
        """Keeps a request, and fetches what it lacks from all other replicas."""
        self.waiting[request.client] = Waiting(request, missing)
        letters = []
        for version in missing:
            self.fetching.setdefault(version, {})
            letters += [self.letter(Fetch(self.number, *version), Party("r", other))
                        for other in range(self.bounds.replicas) if other != self.number]
        return letters

    # ---- requests

    def handle(self, request):
        unknown = [part.object for part in request.sets if part.object not in self.histories]
        if unknown:
            return self.reply(request, Refusal(UNKNOWN_OBJECT, unknown[0]), ())
        sets, culled = self.cull(request.sets)
        self.handled.append(Handled(request, tuple(entry for part in sets for entry in part.entries)))
        verdict = self.decide(request, sets)
        if isinstance(verdict, Missing):
            return self.wait(request, verdict.versions)
        return self.reply(request, verdict, culled)

    def cull(self, sets):
        """The sets without the entries whose HMAC is wrong, and the objects and replicas of these."""
        kept, culled = [], []
        for part in sets:
            entries = tuple(entry for entry in part.entries if self.keys.stays(entry, self.number))
            kept.append(ObjectSet(part.object, entries))
            culled += [(part.object, entry.history.replica) for entry in part.entries if entry not in entries]
        return tuple(kept), tuple(culled)

    def reply(self, request, verdict, culled):
        known = (self.histories[part.object] for part in request.sets if part.object in self.histories)
        shown = tuple(map(self.keys.sealed, known))
        frame = Reply(self.number, request.client, request.number, request.round, verdict, culled, shown)
        return [self.letter(frame, Party("c", request.client))]

    def decide(self, request, kept):
        """The verdict on a request, from its culled sets, or what is Missing."""
        thin = [part.object for part in kept if len(part.entries) < self.bounds.quorum]
        if thin:
            return Refusal(THIN, thin[0])
        sets = {part.object: part.entries for part in kept}
        given = Given(request, sets, sets_digest(kept), Plans(sets, self.bounds))
        decided = {"act": self.decide_act, "query": self.decide_query, "mend": self.decide_mend}
        return decided[request.body.kind](given)

    def priors(self, given):
        """The stamps on which an operation rests, by its objects."""
        classes = given.plans.classes
        return {known: classes[known].object_candidate.stamp for known in given.request.body.objects}

    def decide_query(self, given):
        priors = self.priors(given)
        barred = self.barred(given, priors)
        if barred:
            return barred
        return Told(tuple(priors.items()), performed(self.values_at(priors), given.request.body)[1])

    def decide_act(self, given):
        request, classes, priors = given.request, given.plans.classes, self.priors(given)
        client, number, act = request.client, request.number, act_digest(request.client, request.number, request.body)
        fresh = grouped({known: Candidate(Stamp(classes[known].latest.time + 1, 0, client, act, given.digest), prior)
                         for known, prior in priors.items()})
        stamps = tuple((known, candidate.stamp) for known, candidate in fresh.items())
        if all(classes[known].code == METHOD and self.holds(known, fresh[known]) for known in fresh):
            rows = [self.versions[version].row(client) for version in stamps]
            if all(keeps(row, number, act) for row in rows):
                return Done(stamps, rows[0].answer)
        barred = self.barred(given, priors)
        if barred:
            return barred
        rows = {known: self.versions[known, prior].row(client) for known, prior in priors.items()}
        if all(keeps(row, number, act) for row in rows.values()):
            return Already(next(iter(rows.values())).answer)
        for known, row in rows.items():
            if row is not None and row.number >= number:
                return Refusal(SPENT, known, row.number)
        return self.without_room(fresh, priors, classes) or self.perform(given, priors, fresh, act)

    def perform(self, given, priors, fresh, act):
        """Performs an act whose candidates may be added."""
        client, number = given.request.client, given.request.number
        values, answer = performed(self.values_at(priors), given.request.body)
        for (known, candidate), value in zip(fresh.items(), values, strict=True):
            before = self.versions[known, priors[known]]
            kept = {**dict(before.kept), client: KeptRow(number, act, answer)}
            after = before._replace(value=value, kept=tuple(sorted(kept.items())))
            self.accept(known, candidate, linked(after, known, candidate))
        return Done(tuple((known, candidate.stamp) for known, candidate in fresh.items()), answer)

    def values_at(self, stamps):
        """The kinds and the values of objects at these stamps."""
        return [(self.kinds[known], self.versions[known, stamp].value) for known, stamp in stamps.items()]

    def barred(self, given, priors):
        """What keeps an operation from its objects: a Refusal, or the versions that are Missing, or None."""
        classes = given.plans.classes
        for known in priors:
            if self.histories[known].latest > classes[known].latest:
                return Refusal(NOT_CURRENT, known, self.histories[known].latest)
        for known in priors:
            if classes[known].code != METHOD:
                return Refusal(NOT_METHOD, known, classes[known].code)
        return self.lacking(priors.items())

    def lacking(self, versions):
        """The versions of these that are Missing, or None."""
        missing = tuple(version for version in versions if version not in self.versions)
        return Missing(missing) if missing else None

    def without_room(self, added, fresh, classes):
        """The refusal of candidates whose objects have no time or no room for them, or None; `fresh` has the objects
        on which candidates are made."""
        spent = [known for known in fresh if classes[known].latest.time == LAST_TIME]
        full = [known for known in added if len(self.histories[known].candidates) >= MOST_CANDIDATES]
        if spent:
            return Refusal(TIME_SPENT, spent[0])
        return Refusal(HISTORY_FULL, full[0]) if full else None

    def decide_mend(self, given):
        target, classes = given.request.body.target, given.plans.classes
        evidence = given.plans.evidence(target) if classes[target].code == COPY else ()
        missing = self.lacking(evidence)
        if missing:
            return missing
        added = self.to_add(given, target)
        if isinstance(added, Refusal):
            return added
        stamps = {addition.object: addition.candidate.stamp for addition in added}
        mended = Mended(target, stamps[target]) if added else None
        if mended and all(self.holds(addition.object, addition.candidate) for addition in added):
            return mended
        late = self.late(classes, target, added)
        if late:
            return late
        if not mended:
            needed = classes[target].needed
            return Refusal(SOUND, target) if needed is None else Refusal(NEEDED, needed)
        wanted = [(addition.object, addition.wanted) for addition in added if addition.wanted is not None]
        missing = self.lacking(wanted)
        if missing:
            return missing
        fresh = [addition.object for addition in added if addition.is_fresh]
        refused = self.without_room(stamps, fresh, classes)
        if refused:
            return refused
        for addition in added:
            version = self.versions.get((addition.object, addition.wanted))
            if version is not None and addition.is_fresh:
                version = linked(version, addition.object, addition.candidate)
            self.accept(addition.object, addition.candidate, version)
        return mended

    def late(self, classes, target, added):
        """The refusal where the replica has a later candidate of an object than the sets show, or than what would be
        added; or None."""
        candidates = {target: None, **{addition.object: addition.candidate for addition in added}}
        for known, candidate in sorted(candidates.items()):
            own = self.histories[known].latest
            if own > classes[known].latest or (candidate is not None and candidate.stamp <= own):
                return Refusal(NOT_CURRENT, known, own)
        return None

    def to_add(self, given, target):
        """The additions, objects rising, that mend a target; none where there is nothing to mend, or an object has to
        be shown first. A Refusal, where a copy has no plan."""
        found, classes = given.plans.classes[target], given.plans.classes
        if found.code == INLINE_METHOD:
            objects = [known for known, _ in found.object_candidate.group] or [target]
            candidates = [(known, classes[known].object_candidate) for known in objects]
            return [Addition(known, candidate, False, candidate.stamp) for known, candidate in candidates]
        if found.code == INLINE_BARRIER:
            return [Addition(target, found.barrier_candidate, False, None)]
        if found.code == BARRIER:
            stamp = Stamp(found.latest.time + 1, 1, given.request.client, b"", given.digest)
            return [Addition(target, Candidate(stamp, found.object_candidate.stamp), True, None)]
        return self.to_copy(given, target) if found.code == COPY else []

    def to_copy(self, given, target):
        """The additions that copy a target, or the Refusal of its plan."""
        links = {version: dict(self.versions[version].links) for version in given.plans.evidence(target)}
        plan = given.plans.plan(target, links)
        if isinstance(plan, Refusal):
            return plan
        times = {known: given.plans.classes[known].latest.time + 1 for known, _ in plan}
        stamps = {known: Stamp(time, 0, given.request.client, b"", given.digest) for known, time in times.items()}
        copies = grouped({known: Candidate(stamps[known], chosen.stamp) for known, chosen in plan})
        return [Addition(known, candidate, True, candidate.prior) for known, candidate in copies.items()]

    # ---- what the replica has

    def holds(self, target, candidate):
        return candidate in self.histories[target].candidates

    def accept(self, target, candidate, version):
        """Adds a candidate to the history, and its version, if there is one, to those that are kept."""
        self.histories[target] = self.histories[target].with_candidate(candidate)
        if version is not None:
            self.versions.setdefault((target, candidate.stamp), version)
