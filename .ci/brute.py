"""All that MPI allows the ranks of a tiny script to tell, found move by move with nothing left out: every answer that a
command may have, every pair, every cancel. It shares no line with the judge of conformance/, which it is held against."""
import collections

# A message: its sender, where it goes, what it is, whether its send is synchronous; and what became of it: "pending",
# "claimed", "received" or "withdrawn"; whether its send was asked to be cancelled. Its name is its sender and number.
Message = collections.namedtuple("Message", "to tag ctx body synchronous fate recalled")
# A receive: what it selects, its capacity, the name of its message; and "open", "marked", "cancelled" or "full".
Receive = collections.namedtuple("Receive", "pick cap message fate")
# A rank: how many commands ran, the requests by name, the claimed messages by handle, what it sent, its receives, and
# what it told.
Rank = collections.namedtuple("Rank", "at names handles sent receives told")


class TooMany(Exception):
    pass


def digits(body):
    if body.startswith("g"):
        return bytes((31 * k + 7) % 251 for k in range(int(body[1:]))).hex()
    return body[1:]


def agrees(pick, sender, message):
    source, tag, ctx = pick
    return source in (str(sender), "any") and tag in (message.tag, "any") and ctx == message.ctx


class Freedom:
    """The machine of one script."""

    def __init__(self, text, limit):
        head, *lines = text.splitlines()
        self.limit = limit
        self.programs = [[] for _ in range(int(head.split()[1]))]
        for number, line in enumerate(lines, 2):
            rank, word, *args = line.split()
            self.programs[int(rank.rstrip(":"))].append((number, word, args))
        self.all = range(len(self.programs))
        self.start = tuple(Rank(0, (), (), (), (), ()) for _ in self.all)

    # One rank in the state of all

    @staticmethod
    def put(state, rank, **fields):
        return state[:rank] + (state[rank]._replace(**fields),) + state[rank + 1:]

    def told(self, state, rank, answer, **fields):
        me = state[rank]
        line = self.programs[rank][me.at][0]
        said = me.told if answer is None else (*me.told, (line, answer))
        return self.put(state, rank, at=me.at + 1, told=said, **fields)

    @staticmethod
    def named(pairs, key, value):
        rest = {k: v for k, v in pairs if k != key}
        if value is not None:
            rest[key] = value
        return tuple(sorted(rest.items()))

    def fated(self, state, name, **fields):
        """The message of this name has another fate."""
        sender, number = name
        sent = list(state[sender].sent)
        sent[number] = sent[number]._replace(**fields)
        return self.put(state, sender, sent=tuple(sent))

    def received(self, state, rank, number, **fields):
        receives = list(state[rank].receives)
        receives[number] = receives[number]._replace(**fields)
        return self.put(state, rank, receives=tuple(receives))

    # Matching

    def incoming(self, state, rank, sender):
        return [((sender, n), it) for n, it in enumerate(state[sender].sent) if it.to == rank and it.fate == "pending"]

    def waiting(self, state, rank):
        return [(n, it) for n, it in enumerate(state[rank].receives) if it.fate in ("open", "marked")]

    def shown(self, state, rank, pick):
        """Of each sender the message that a receive started now would take."""
        for sender in self.all:
            fitting = [it for it in self.incoming(state, rank, sender) if agrees(pick, sender, it[1])]
            if fitting and not any(agrees(it.pick, sender, fitting[0][1]) for _, it in self.waiting(state, rank)):
                yield fitting[0]

    def pairs(self, state):
        for rank in self.all:
            waiting = self.waiting(state, rank)
            for sender in self.all:
                incoming = self.incoming(state, rank, sender)
                for name, message in incoming:
                    takers = [it for it in waiting if agrees(it[1].pick, sender, message)]
                    if not takers:
                        continue
                    number, receive = takers[0]
                    if next(it for it in incoming if agrees(receive.pick, sender, it[1]))[0] == name:
                        after = self.received(state, rank, number, message=name, fate="full")
                        yield self.fated(after, name, fate="received")

    def cancels(self, state):
        for rank in self.all:
            for number, receive in enumerate(state[rank].receives):
                if receive.fate == "marked":
                    yield self.received(state, rank, number, fate="cancelled")
            for number, message in enumerate(state[rank].sent):
                if message.recalled and message.fate == "pending":
                    yield self.fated(state, (rank, number), fate="withdrawn")

    # Commands

    def commands(self, state, rank):
        """The states behind the next command of a rank, one for each answer that it may have."""
        me = state[rank]
        if me.at == len(self.programs[rank]):
            return []
        _, word, args = self.programs[rank][me.at]
        kind = {"isend": self.send, "issend": self.send, "irecv": self.receive, "mrecv": self.take, "wait": self.finish,
                "test": self.finish, "cancel": self.cancel}.get(word, self.look)
        return kind(state, rank, word, args)

    def send(self, state, rank, word, args):
        me = state[rank]
        if args[0] in dict(me.names):
            return [self.told(state, rank, "busy")]
        message = Message(int(args[1]), args[2], args[3], digits(args[4]), word == "issend", "pending", False)
        names = self.named(me.names, args[0], ("sent", len(me.sent)))
        return [self.told(state, rank, None, names=names, sent=(*me.sent, message))]

    def receive(self, state, rank, word, args):
        me = state[rank]
        if args[0] in dict(me.names):
            return [self.told(state, rank, "busy")]
        names = self.named(me.names, args[0], ("receive", len(me.receives)))
        receives = (*me.receives, Receive(tuple(args[1:4]), int(args[4]), None, "open"))
        return [self.told(state, rank, None, names=names, receives=receives)]

    def take(self, state, rank, word, args):
        me = state[rank]
        if args[0] in dict(me.names):
            return [self.told(state, rank, "busy")]
        name = dict(me.handles).get(args[1])
        if name is None:
            return [self.told(state, rank, "null")]
        names = self.named(me.names, args[0], ("receive", len(me.receives)))
        receives = (*me.receives, Receive(None, int(args[2]), name, "full"))
        after = self.told(state, rank, None, names=names, receives=receives, handles=self.named(me.handles, args[1], None))
        return [self.fated(after, name, fate="received")]

    def finish(self, state, rank, word, args):
        me = state[rank]
        request = dict(me.names).get(args[0])
        if request is None:
            return [self.told(state, rank, "null")]
        names = self.named(me.names, args[0], None)
        after = [self.told(state, rank, it, names=names) for it in self.ends(state, rank, *request)]
        if request[0] == "sent":  # its message is not withdrawn any more
            after = [self.fated(it, (rank, request[1]), recalled=False) for it in after]
        return after + [self.told(state, rank, "no")] if word == "test" else after

    def ends(self, state, rank, kind, number):
        if kind == "sent":
            message = state[rank].sent[number]
            if message.fate == "withdrawn":
                return ["cancelled"]
            return ["sent"] if message.fate == "received" or not message.synchronous else []
        receive = state[rank].receives[number]
        if receive.fate != "full":
            return ["cancelled"] if receive.fate == "cancelled" else []
        sender, place = receive.message
        message = state[sender].sent[place]
        size = len(message.body) // 2
        if size > receive.cap:
            return [f"cut {sender} {message.tag} {size}"]
        return [f"got {sender} {message.tag} {size} x{message.body}"]

    def cancel(self, state, rank, word, args):
        request = dict(state[rank].names).get(args[0])
        if request is None:
            return [self.told(state, rank, "null")]
        kind, number = request
        if kind == "sent":
            fate = state[rank].sent[number].fate
            return [self.told(self.fated(state, (rank, number), recalled=True, fate=fate), rank, "asked")]
        fate = state[rank].receives[number].fate
        if fate == "full":
            return [self.told(state, rank, it) for it in ("late", "asked")]
        gone = self.told(self.received(state, rank, number, fate="cancelled"), rank, "done")
        asked = self.received(state, rank, number, fate="marked" if fate == "open" else fate)
        return [gone, self.told(asked, rank, "asked")]

    def look(self, state, rank, word, args):
        me = state[rank]
        if word == "mprobe" and args[0] in dict(me.handles):
            return [self.told(state, rank, "busy")]
        after = [self.told(state, rank, "none")] if word != "await" else []
        for name, message in self.shown(state, rank, args[-3:]):
            seen = self.told(state, rank, f"seen {name[0]} {message.tag} {len(message.body) // 2}")
            if word == "mprobe":
                seen = self.put(self.fated(seen, name, fate="claimed"), rank, handles=self.named(me.handles, args[0], name))
            after.append(seen)
        return after

    # What is told

    def moves(self, state):
        for rank in self.all:
            yield from self.commands(state, rank)
        yield from self.pairs(state)
        yield from self.cancels(state)

    def found(self, fits=lambda state: True):
        """All states that such states lead to."""
        met, left = {self.start}, [self.start]
        for state in left:
            for it in self.moves(state):
                if it not in met and fits(it):
                    met.add(it)
                    left.append(it)
            if len(met) > self.limit:
                raise TooMany
        return left

    def waits(self, state):
        """The lines at which ranks wait, where nothing more has to happen; else None."""
        if next(self.pairs(state), None) or next(self.cancels(state), None):
            return None
        lines = {}
        for rank in self.all:
            me = state[rank]
            if me.at < len(self.programs[rank]):
                line, word, args = self.programs[rank][me.at]
                if not self.may_stay(state, rank, word, args):
                    return None
                lines[rank] = line
        return lines

    def may_stay(self, state, rank, word, args):
        if not self.commands(state, rank):
            return True
        request = dict(state[rank].names).get(args[0])
        if word != "wait" or request is None or request[0] != "sent":
            return False
        return state[rank].sent[request[1]].fate in ("pending", "claimed")

    def reports(self):
        """Each report: what each rank told, and where it waits."""
        rests = ((state, self.waits(state)) for state in self.found())
        return {(tuple(it.told for it in state), tuple(sorted(waits.items()))) for state, waits in rests if waits is not None}

    def telling(self, told):
        """The states in which the ranks told exactly this, on ways on which they tell nothing else."""
        def fits(state):
            return all(it.told == due[:len(it.told)] for it, due in zip(state, told))
        return [state for state in self.found(fits) if all(it.told == due for it, due in zip(state, told))]

    def next_answers(self, told, rank, line):
        """What the rank may answer at this line behind that."""
        after = (it[rank].told for state in self.telling(told) for it in self.commands(state, rank))
        return {said[-1][1] for said in after if len(said) > len(told[rank]) and said[-1][0] == line}
