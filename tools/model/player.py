"""Makes the run of a script."""
from model.reading import decode
from model.script import read_script
from model.values import LAST_TIME, OPENING, THIN, Candidate, History, Party, Refusal, Reply, Stamp
from model.world import Refused, World

# What a liar shows that claims the greatest time.
FAR = Candidate(Stamp(LAST_TIME, 0, 1, b"", b"\xff" * 32), OPENING)


def run_of(data, world_kind=World):
    """The world behind the run of a script. Raises Refused, with a line, where the script or one of its events is, and
    with the world before it where an event is."""
    script = read_script(data)
    player = Player(world_kind(script.setup))
    for line in script.lines:
        try:
            player.play(line.word, line.needs)
        except Refused as refused:
            raise Refused(refused.kind, line.number, player.world) from None
    return player.world


class Player:
    """Plays lines upon a world. `held` has parties, `lost` numbers of letters; below `low` no letter waits any more.

    The call of a line has its name, and takes what script.LineReader makes of it.
    """

    def __init__(self, world):
        self.world = world
        self.held, self.lost, self.low = set(), set(), 1

    def play(self, word, needs):
        """Plays a line. Raises Refused where an event cannot happen."""
        getattr(self, word)(*needs)

    def call(self, client, body):
        self.world.invoke(client, body)

    def deliver(self, numbers):
        for number in numbers:
            self.world.deliver(number)

    def flow(self, most=None):
        done = 0
        while most is None or done < most:
            number = self.next_letter()
            if number is None:
                return
            self.world.deliver(number)
            done += 1

    def is_gone(self, number):
        """Whether a letter was delivered or lost, or has no correct receiver."""
        receiver = self.world.letter(number).receiver
        return number in self.world.delivered or number in self.lost or not self.world.is_correct(receiver)

    def next_letter(self):
        """The lowest letter that a flow takes, or None."""
        last = len(self.world.letters)
        while self.low <= last and self.is_gone(self.low):
            self.low += 1
        for number in range(self.low, last + 1):
            letter = self.world.letter(number)
            if not self.is_gone(number) and not {letter.sender, letter.receiver} & self.held:
                return number
        return None

    def tick(self, client, times=1):
        for _ in range(times):
            self.world.tick(client)

    def wake(self, client):
        while self.world.clients[client].rest > 0:
            self.world.tick(client)

    def inject(self, party, text):
        self.world.inject(party, text)

    def hold(self, replicas):
        self.held |= replicas

    def free(self, replicas):
        self.held -= replicas

    def lose(self):
        self.lost |= set(range(1, len(self.world.letters) + 1)) - self.world.delivered

    def fake(self, replica, client, how, shown, readers):
        """Injects a reply of a replica to the last request of a client."""
        asking = self.world.clients.get(client)
        request = asking.request if asking else None
        if request is None:
            raise Refused("no request")
        objects = [part.object for part in request.sets]
        verdict = Refusal(THIN, objects[0])
        if how == "show":
            histories = self.world.replicas[shown].histories.values()
        elif how == "echo":
            last = self.last_reply(shown, client)
            verdict, histories = last.verdict, [sealed.history for sealed in last.shown]
        else:
            histories = [History(known, replica).with_candidate(FAR) for known in objects]
        told = {history.object: history.of_replica(replica) for history in histories}
        sealed = (self.world.keys.sealed(told.get(known) or History(known, replica), readers) for known in objects)
        frame = Reply(replica, client, request.number, request.round, verdict, (), tuple(sealed))
        receiver = Party("c", client)
        self.world.inject(receiver, self.world.keys.signed(frame, Party("r", replica), receiver))

    def last_reply(self, replica, client):
        """The last reply of a replica to a client. Raises Refused where it sent none."""
        parties = (Party("r", replica), Party("c", client))
        for _, letter in reversed(self.world.letters):
            if (letter.sender, letter.receiver) == parties:
                return decode(letter.text)
        raise Refused("no request")
