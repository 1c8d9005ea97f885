"""Random scripts: lines by name, which a front makes plain as they are made."""
from hunting.front import Front, KeepingWorld, Unplayable
from hunting.lies import Liars
from hunting.operations import chance, operation

# How often, in a hundred, a step calls a client that has nothing to do, ticks one that has, delivers by a flow, loses
# all letters on their way, or frees a replica that is held; most other steps deliver letters.
CALL, TICK, FLOW, LOSE_ALL, FREE = 10, 1, 4, 0.4, 12
# How many letters a step delivers at most, of how many that are on their way; how many steps are made for each
# operation at most, and how many events of a run.
MOST_LETTERS, MOST_WAITING, MOST_STEPS, MOST_EVENTS = 8, 24, 60, 500
# How often, in a hundred, a run has liars that show the greatest time.
FAR_RUNS = 25
# How often the ends of all operations are sought behind the last step of a run.
ENDINGS = 6


def drawn(random, options):
    """The options of one run: all of what is said there in some, and less of it in others."""
    shares = {name: random.choice((0, 0.5, 1)) for name in ("lose", "repeat", "reorder", "hold")}
    shares["lie"] = random.choice((0.3, 0.6, 1))
    fewer = {name: round(share * getattr(options, name)) for name, share in shares.items()}
    return options._replace(
        faulty_replicas=random.randint(0, min(options.faulty_replicas, options.faults)),
        faulty_clients=random.randint(0, min(options.faulty_clients, options.clients - 1)), **fewer)


def setup_lines(random, options):
    """The lines of a random setup."""
    replicas = random.sample(range(5 * options.faults + 1), options.faulty_replicas)
    clients = random.sample(range(1, options.clients + 1), options.faulty_clients)
    return [
        f"bounds {options.faults}", f"seed {random.randrange(1000)}", f"clients {options.clients}",
        *(f"object {known} {kind}" for known, kind in enumerate(options.objects)),
        *(f"faulty replica {number}" for number in sorted(replicas)),
        *(f"faulty client {number}" for number in sorted(clients))]


class Schedule:
    """Makes a random script, line by line. `lines` has its lines by name behind the setup, and `front` their run.

    `on_way` has the numbers of the letters that steps may deliver, of the `looked` ones that were sent so far: those
    that are lost come again by chance alone.
    """

    def __init__(self, random, options, world_kind=KeepingWorld):
        self.random, self.options = random, drawn(random, options)
        self.setup = setup_lines(random, self.options)
        self.front = Front(self.setup, world_kind)
        self.world, self.kinds = self.front.world, self.front.setup.kinds
        self.liars = Liars(random, self.front, chance(random, FAR_RUNS))
        self.lines, self.on_way, self.looked = [], [], 0

    def make(self, has_end=True):
        """Makes all lines: steps by chance, and an end, if it has one, in which all is delivered and clients go on."""
        steps = MOST_STEPS * self.options.operations
        while len(self.world.operations) < self.options.operations and steps > 0 and self.world.events < MOST_EVENTS:
            self.step()
            steps -= 1
        if has_end:
            self.end()

    def add(self, line):
        """Adds a line, where it can stand."""
        try:
            self.front.take(line)
        except Unplayable:
            return
        self.lines.append(line)

    def step(self):
        random, options = self.random, self.options
        if self.front.player.held and chance(random, FREE):
            return self.free()
        for percent, move in ((options.lie, self.lie), (options.hold, self.hold), (CALL, self.call), (TICK, self.tick),
                              (FLOW, self.flow), (LOSE_ALL, self.lose), (options.repeat, self.repeat)):
            if chance(random, percent):
                return move()
        return self.deliver() or self.call() or self.tick()

    # ---- steps

    def lie(self):
        for line in self.liars.some_lines():
            self.add(line)

    def hold(self):
        self.add(f"hold {self.random.randrange(self.world.bounds.replicas)}")

    def free(self):
        self.add(f"free {min(self.front.player.held).number}")

    def call(self):
        idle = [number for number, client in self.world.clients.items() if client.operation is None]
        if idle:
            self.add(f"call {self.random.choice(idle)} {operation(self.random, self.kinds)}")

    def tick(self):
        busy = [number for number, client in self.world.clients.items() if client.operation is not None]
        if busy:
            number = self.random.choice(busy)
            rests = self.world.clients[number].rest > 0
            self.add(f"wake {number}" if rests and chance(self.random, 80) else f"tick {number}")

    def flow(self):
        self.add(f"flow {self.random.randint(1, 30)}")

    def lose(self):
        self.add("lose")

    def repeat(self):
        """A letter that was delivered or lost comes once more, or at last."""
        if self.world.letters:
            self.add(f"deliver {self.front.names.name(self.random.randint(1, len(self.world.letters)))}")

    def deliver(self):
        """Delivers some letters, and tells whether there were any."""
        self.look()
        player = self.front.player
        letters = ((number, self.world.letters[number - 1].letter) for number in self.on_way)
        taken = [number for number, letter in letters if not {letter.sender, letter.receiver} & player.held]
        if not taken:
            return False
        taken = taken[-MOST_WAITING:]
        if chance(self.random, self.options.reorder):
            self.random.shuffle(taken)
        count = self.random.randint(1, MOST_LETTERS)
        self.add(" ".join(["deliver", *map(self.front.names.name, taken[:count])]))
        return True

    def look(self):
        """Brings `on_way` up to date: some of the letters that were sent since are lost."""
        sent = range(self.looked + 1, len(self.world.letters) + 1)
        self.on_way += [number for number in sent if not chance(self.random, self.options.lose)]
        self.on_way = [number for number in self.on_way if not self.front.player.is_gone(number)]
        self.looked = len(self.world.letters)

    # ---- the end

    def end(self):
        """All is free and delivered, and clients go on, a few times."""
        self.add(" ".join(["free", *map(str, range(self.world.bounds.replicas))]))
        for _ in range(ENDINGS):
            self.add("flow")
            for number, client in sorted(self.world.clients.items()):
                if client.operation is not None:
                    self.add(f"wake {number}" if client.rest > 0 else f"tick {number}")
        self.add("flow")
