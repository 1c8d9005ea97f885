"""What faulty parties send in random runs: lines `fake`, and lines `inject` in the words of tools/frame."""
from collections import Counter

from making.letters import Lacking
from model.kinds import FRESH
from model.listed_frames import listed_stamp, listed_verdict
from model.told_frames import told_value
from model.values import LAST_TIME, OPENING, State

from hunting.operations import chance, operation, operation_on, some_objects

# How many numbers a faulty client gives its operations: so few that some have the same one.
MOST_NUMBERS = 3
# How often, in a hundred, it takes the histories of those replicas alone whose last ones are alike.
ALIKE = 70
NO_DIGEST_HEX = "ff" * 32


def objects_of(body):
    """The objects of an operation in words."""
    return [int(part.split()[1]) for part in body.split(" + ")]


class Liars:
    """Makes lines of the faulty parties of a front, by chance; each call gives some, or none where nothing fits.

    `is_far` tells whether a liar shows histories of the greatest time, with which objects may come to have no time
    left.
    """

    def __init__(self, random, front, is_far):
        self.random, self.front, self.is_far = random, front, is_far
        self.world, self.setup, self.bounds = front.world, front.setup, front.world.bounds
        self.replicas = sorted(party.number for party in self.setup.faulty if party.kind == "r")
        self.clients = sorted(party.number for party in self.setup.faulty if party.kind == "c")
        self.calls = {}

    def some_lines(self):
        """Something that a faulty party sends."""
        self.front.shown.look()
        makers = [self.fake, self.reply, self.fetched] if self.replicas else []
        makers += [self.act, self.act, self.mend, self.ask] if self.clients else []
        return self.random.choice(makers)() if makers else []

    # ---- replicas

    def asking(self):
        """A correct client that has sent a request, or None."""
        asking = [client for client in self.world.clients.values() if client.request is not None]
        busy = [client for client in asking if client.operation is not None]
        return self.random.choice(busy or asking) if asking else None

    def fake(self):
        """A reply by the script's own word for it."""
        client, replica = self.asking(), self.random.choice(self.replicas)
        if client is None:
            return []
        how = self.random.choice(("show", "show", "echo", "far") if self.is_far else ("show", "echo"))
        words = f"fake {replica} {client.me} {how}"
        if how != "far":
            words += f" {self.random.choice(sorted(self.world.replicas))}"
        if chance(self.random, 35):
            words += f" for {self.some_replicas()}"
        return [words]

    def some_replicas(self, least=1):
        """Some replicas, rising."""
        count = self.bounds.replicas
        return " ".join(map(str, sorted(self.random.sample(range(count), self.random.randint(least, count)))))

    def reply(self):
        """A reply with any verdict and any histories."""
        client, replica = self.asking(), self.random.choice(self.replicas)
        if client is None:
            return []
        request = client.request
        objects = [part.object for part in request.sets]
        words = f"inject replica {replica} to client {client.me} reply {request.client}.{request.number}"
        words += f" round {request.round} {self.verdict(request, objects)}"
        if chance(self.random, 15):
            correct = self.random.choice(sorted(self.world.replicas))
            words += f" culled object {self.random.choice(objects)} of replica {correct}"
        for known in objects:
            if chance(self.random, 80):
                words += f" shows object {known}{self.history(known)}"
        return [words]

    def history(self, known):
        """What a liar shows of an object: an older history, one that goes beyond others, or one that not all take."""
        of_object = [(number, sealed.history) for number, sealed in self.front.shown.shown
                     if sealed.history.object == known and number]
        if not of_object:
            return ""
        number, history = self.random.choice(of_object[-12:] if chance(self.random, 70) else of_object)
        words = f" as replica {history.replica} in letter {self.front.names.name(number)}"
        count = len(history.candidates)
        if chance(self.random, 25):
            count = self.random.randint(1, count)
            words += f" cut to {count}"
        if chance(self.random, 25):
            words += self.beyond(history, count)
        if chance(self.random, 25):
            words += f" zero for {self.some_replicas()}"
        return words

    def beyond(self, history, count):
        """A candidate that nobody made, above the first ones of a history."""
        latest = history.candidates[count - 1].stamp
        time = min(latest.time + self.random.randint(1, 3), LAST_TIME)
        prior = next(each.stamp for each in reversed(history.candidates[:count]) if not each.stamp.barrier)
        kind = "barrier" if chance(self.random, 30) else "time"
        client = self.random.randint(1, self.setup.clients)
        made = f"{kind} {time} of client {client} act - sets {NO_DIGEST_HEX}"
        return f" then {made} on {self.stamp(history.object, prior)}"

    def stamp(self, known, stamp):
        """A stamp in words: by its time and client where these are enough."""
        words = listed_stamp(stamp)
        if stamp == OPENING:
            return words
        try:
            if self.front.shown.stamp(known, *stamp[:3]) == stamp:
                return words
        except Lacking:
            pass
        return f"{words} act {stamp.act.hex() or '-'} sets {stamp.sets.hex()}"

    def verdict(self, request, objects):
        """A verdict on a request: one that another replica told of it, maybe with another answer, or any refusal."""
        known = self.random.choice(objects)
        told = self.told_verdicts(request)
        if told and chance(self.random, 40):
            words = listed_verdict(self.random.choice(told))
            if " at " not in words and not words.startswith("not of"):
                return words
        stamp = self.stamp(known, self.some_stamp(known))
        answer = " + ".join(str(self.random.randint(0, 30)) for _ in request.body.parts or (0,))
        stamps = " ".join(f"object {each} at {self.stamp(each, self.some_stamp(each))}"
                          for each in (request.body.objects or [known]))
        return self.random.choice((
            f"thin {known}", f"sound {known}", f"stale {known}", f"needs {known}", f"history full {known}",
            f"time spent {known}", f"spent {known} at {self.random.randint(1, 9)}", f"mended {known} at {stamp}",
            f"not current {known} latest {stamp}", f"not of class METHOD {known} but barrier", f"already {answer}",
            f"done {answer} {stamps}", f"told {answer} {stamps}"))

    def told_verdicts(self, request):
        """What replicas told of the round of a request."""
        client = self.world.clients[request.client]
        return [reply.verdict for reply in client.counted.values()]

    def some_stamp(self, known):
        """A stamp that some history of an object holds."""
        stamps = [candidate.stamp for replica in self.world.replicas.values() if known in replica.histories
                  for candidate in replica.histories[known].candidates]
        return self.random.choice(stamps[-12:])

    def fetched(self):
        """A version of a fetch under way, mostly a wrong one."""
        fetches = [(number, version) for number, replica in self.world.replicas.items() for version in replica.fetching]
        if not fetches:
            return []
        number, (known, stamp) = self.random.choice(fetches)
        kind = self.setup.kinds[known]
        state = State(kind, {"counter": self.random.randint(0, 9), "blob": b"\7", "dir": ()}.get(kind, FRESH[kind]))
        words = f"object {known} at {self.stamp(known, stamp)} {told_value(state)}"
        return [f"inject replica {self.random.choice(self.replicas)} to replica {number} fetched {words}"]

    # ---- clients

    def asked(self, number, body, objects):
        """A request of a faulty client, upon histories that some replicas showed: the same to one replica or some."""
        client, in_round = self.random.choice(self.clients), self.random.randint(1, 3)
        words = f"request {client}.{number} round {in_round} {body}"
        for known in objects:
            words += f" object {known} shown by {self.entries(known)}"
        correct = sorted(self.world.replicas)
        count = self.random.choice((1, self.random.randint(2, len(correct)), len(correct)))
        return [f"inject client {client} to replica {receiver} {words}"
                for receiver in sorted(self.random.sample(correct, count))]

    def entries(self, known):
        """The replicas whose histories a request has of an object, and which ones: mostly the last ones, and often of
        those replicas alone whose last ones are alike."""
        shown, last = {}, {}
        for number, sealed in self.front.shown.shown:
            if sealed.history.object == known:
                shown.setdefault(sealed.history.replica, []).append(number)
                last[sealed.history.replica] = sealed.history.candidates
        if not shown:
            return "none"
        replicas = sorted(shown)
        if chance(self.random, ALIKE):
            common = Counter(last.values()).most_common(1)[0][0]
            alike = [replica for replica in replicas if last[replica] == common]
            replicas = alike if len(alike) >= self.bounds.quorum else replicas
        least = min(self.bounds.quorum, len(replicas))
        count = self.random.randint(least, len(replicas)) if chance(self.random, 95) else 1
        replicas = sorted(self.random.sample(replicas, count))
        return " ".join(map(str, replicas)) + "".join(self.changed(replica, shown[replica]) for replica in replicas)

    def changed(self, replica, letters):
        """Which history of a replica is shown, of those in these letters, and how it is changed."""
        number = self.random.choice(letters) if chance(self.random, 6) else letters[-1]
        words = f" in letter {self.front.names.name(number)}" if number else ""
        if replica in self.replicas and chance(self.random, 20):
            words += " cut to 1 sealed"
        if chance(self.random, 3):
            words += f" zero for {self.some_replicas()}"
        return f" replica {replica}{words}" if words else ""

    def act(self):
        """An update: one of those that it sent before, or one more, maybe under a number that it gave already."""
        number = self.random.randint(1, MOST_NUMBERS)
        calls = self.calls.setdefault(number, [])
        objects = objects_of(calls[0]) if calls else some_objects(self.random, self.setup.kinds)
        if not calls or len(calls) < 2 and chance(self.random, 50):
            calls.append(operation_on(self.random, self.setup.kinds, objects, False))
        return self.asked(number, f"act {self.random.choice(calls)}", objects)

    def ask(self):
        body = operation(self.random, self.setup.kinds, 100)
        return self.asked(self.random.randint(1, MOST_NUMBERS), f"ask {body}", objects_of(body))

    def mend(self):
        objects = some_objects(self.random, self.setup.kinds)
        target = self.random.choice(objects)
        return self.asked(self.random.randint(1, MOST_NUMBERS), f"mend object {target}", objects)
