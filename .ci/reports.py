"""All reports that the runs of a small script can have, found event by event by the rules of docs/know/definitions.md: each
rank keeps what its history tells in plain tuples, and each event that may come next is tried, quiet ones too. It shares
no line with the program."""
import collections

CELLS = 8


def body_of(word):
    if word[0] == "x":
        return word[1:]
    return "".join(f"{(31 * k + 7) % 251:02x}" for k in range(int(word[1:])))


# A message, as its sender sent it. Its name is its sender, its receiver and its number between them.
Message = collections.namedtuple("Message", "tag ctx body asks")
# A receive: what it selects (None, where it is of a claimed message), its capacity, its message, and whether it was
# cancelled.
Receive = collections.namedtuple("Receive", "pick cap message cancelled")
# What the history of a rank tells: how many commands ran; the request or the message of an event that stands before the
# answer of the next one; the requests by name and the messages by handle; the receives, by number; the messages sent,
# by destination; those that came, in order, with what became of each ("free", "paired", "claimed", "withdrawn"); of
# which messages there was a Whole, an Out, a Recall; the answers to withdrawals, as receiver and as sender; and the
# answers so far.
FIELDS = "at begun names handles receives sent came whole out recalled withdrawn undone told"
Rank = collections.namedtuple("Rank", FIELDS)
START = Rank(0, None, (), (), (), (), (), frozenset(), frozenset(), frozenset(), (), (), ())


def commands_of(script):
    """How many ranks there are, and the commands of each: its line, its word and its arguments."""
    lines = script.splitlines()
    ranks = int(lines[0].split(" ")[1])
    commands = [[] for _ in range(ranks)]
    for number, line in enumerate(lines[1:], 2):
        rank, word, *args = line.split(" ")
        commands[int(rank[:-1])].append((number, word, args))
    return ranks, commands


def put(pairs, key, value):
    """A tuple of pairs with this value at the key, or without the key where the value is None."""
    if value is None:
        return tuple(it for it in pairs if it[0] != key)
    return tuple(sorted({**dict(pairs), key: value}.items()))


def fits(pick, sender, message):
    return pick[0] in ("any", str(sender)) and pick[1] in ("any", message.tag) and pick[2] == message.ctx


class World:
    def __init__(self, script, eager, either):
        self.ranks, self.commands = commands_of(script)
        self.eager, self.either = eager, either

    def message(self, state, name):
        sender, to, n = name
        return dict(state[sender].sent)[to][n]

    def first_free(self, state, rank, pick):
        return next((name for name, fate in state[rank].came if fate == "free"
                     and fits(pick, name[0], self.message(state, name))), None)

    @staticmethod
    def with_fate(rank, name, fate):
        return rank._replace(came=tuple((it, fate if it == name else was) for it, was in rank.came))

    def with_receive(self, state, rank, pick, cap):
        """The rank with a receive more, which takes the oldest message that it selects."""
        name = self.first_free(state, rank, pick)
        own = state[rank]._replace(receives=state[rank].receives + (Receive(pick, cap, name, False),),
                                   begun=("receive", len(state[rank].receives)))
        return own if name is None else self.with_fate(own, name, "paired")

    def result(self, state, rank, request):
        """What a request ends with, or None where it is not complete."""
        own = state[rank]
        if request[0] == "send":
            name = (rank, *request[1:])
            if dict(own.undone).get(name) == "done":
                return "cancelled"
            waits = name in own.recalled and name not in dict(own.undone)
            return "sent" if name in own.out and not waits else None
        receive = own.receives[request[1]]
        if receive.cancelled:
            return "cancelled"
        if receive.message is None or receive.message not in own.whole:
            return None
        message = self.message(state, receive.message)
        length = len(message.body) // 2
        if length > receive.cap:
            return f"cut {receive.message[0]} {message.tag} {length}"
        return f"got {receive.message[0]} {message.tag} {length} x{message.body}"

    def seen(self, state, name):
        message = self.message(state, name)
        return f"seen {name[0]} {message.tag} {len(message.body) // 2}"

    def answered(self, state, rank, answer, **changes):
        """The rank after the answer of its next command."""
        own = state[rank]
        told = own.told if answer == "started" else own.told + ((self.commands[rank][own.at][0], answer),)
        return own._replace(at=own.at + 1, begun=None, told=told, **changes)

    def of_start(self, state, rank, word, args):
        own = state[rank]
        if dict(own.names).get(args[0]):
            return self.answered(state, rank, "busy")
        if word == "mrecv" and args[1] not in dict(own.handles):
            return self.answered(state, rank, "null")
        if own.begun:
            handles = put(own.handles, args[1], None) if word == "mrecv" else own.handles
            return self.answered(state, rank, "started", names=put(own.names, args[0], own.begun), handles=handles)
        if word == "irecv":
            return self.with_receive(state, rank, tuple(args[1:4]), int(args[4]))
        if word == "mrecv":
            name = dict(own.handles)[args[1]]
            receives = own.receives + (Receive(None, int(args[2]), name, False),)
            return self.with_fate(own, name, "paired")._replace(receives=receives, begun=("receive", len(own.receives)))
        to, body = int(args[1]), body_of(args[4])
        messages = dict(own.sent).get(to, ())
        asks = word == "issend" or len(body) // 2 > self.eager
        sent = put(own.sent, to, messages + (Message(args[2], args[3], body, asks),))
        return own._replace(sent=sent, begun=("send", to, len(messages)))

    def of_cancel(self, state, rank, args):
        own = state[rank]
        request = dict(own.names).get(args[0])
        if request is None:
            return self.answered(state, rank, "null")
        if request[0] == "send":
            name = (rank, *request[1:])
            if name not in own.recalled:
                return own._replace(recalled=own.recalled | {name})
            return self.answered(state, rank, "asked")
        receive = own.receives[request[1]]
        if own.begun:
            return self.answered(state, rank, "late" if receive.message else "done")
        receives = list(own.receives)
        receives[request[1]] = receive._replace(cancelled=receive.cancelled or receive.message is None)
        return own._replace(receives=tuple(receives), begun=("cancel",))

    def of_mprobe(self, state, rank, args):
        own = state[rank]
        if args[0] in dict(own.handles):
            return self.answered(state, rank, "busy")
        if own.begun:
            handles = put(own.handles, args[0], own.begun[1])
            return self.answered(state, rank, self.seen(state, own.begun[1]), handles=handles)
        name = self.first_free(state, rank, tuple(args[1:4]))
        if name is None:
            return self.answered(state, rank, "none")
        return self.with_fate(own, name, "claimed")._replace(begun=("claim", name))

    def commanded(self, state, rank):
        """The rank after the next event of its next command, or None where that can't go on."""
        own = state[rank]
        if own.at == len(self.commands[rank]):
            return None
        _, word, args = self.commands[rank][own.at]
        if word in ("isend", "issend", "irecv", "mrecv"):
            return self.of_start(state, rank, word, args)
        if word == "cancel":
            return self.of_cancel(state, rank, args)
        if word == "mprobe":
            return self.of_mprobe(state, rank, args)
        if word in ("wait", "test"):
            request = dict(own.names).get(args[0])
            if request is None:
                return self.answered(state, rank, "null")
            result = self.result(state, rank, request)
            if result:
                return self.answered(state, rank, result, names=put(own.names, args[0], None))
            return self.answered(state, rank, "no") if word == "test" else None
        name = self.first_free(state, rank, tuple(args[0:3]))
        if name:
            return self.answered(state, rank, self.seen(state, name))
        return self.answered(state, rank, "none") if word == "probe" else None

    def arrivals(self, state, rank):
        """The rank after the next message of each sender came."""
        own = state[rank]
        for sender in range(self.ranks):
            sent = dict(state[sender].sent).get(rank, ())
            n = sum(name[0] == sender for name, _ in own.came)
            if n == len(sent):
                continue
            name = (sender, rank, n)
            receives = list(own.receives)
            for number, it in enumerate(receives):
                if it.pick and it.message is None and not it.cancelled and fits(it.pick, sender, sent[n]):
                    receives[number] = it._replace(message=name)
                    yield own._replace(receives=tuple(receives), came=own.came + ((name, "paired"),))
                    break
            else:
                yield own._replace(came=own.came + ((name, "free"),))

    def quiet(self, state, rank):
        """The rank after each other event that may come: whole, out, withdraw, undone."""
        own = state[rank]
        fates = dict(own.came)
        for name, fate in own.came:
            if name not in own.whole and (fate == "paired" or not self.message(state, name).asks):
                yield own._replace(whole=own.whole | {name})
            if name not in dict(own.withdrawn) and name in state[name[0]].recalled:
                end = "done" if fate == "free" else "late"
                after = own._replace(withdrawn=put(own.withdrawn, name, end))
                yield self.with_fate(after, name, "withdrawn") if end == "done" else after
        for to, messages in own.sent:
            for n, message in enumerate(messages):
                name = (rank, to, n)
                fate = fates.get(name) if to == rank else dict(state[to].came).get(name)
                if name not in own.out and (not message.asks or fate == "paired"):
                    yield own._replace(out=own.out | {name})
                end = dict(state[to].withdrawn).get(name)
                if name in own.recalled and name not in dict(own.undone) and end:
                    yield own._replace(undone=put(own.undone, name, end))

    @staticmethod
    def waiting(before, own):
        """The rank where the standard send that it just began waits, if it does not wait anyway."""
        if not own or before.begun or not own.begun or own.begun[0] != "send":
            return []
        _, to, n = own.begun
        messages = dict(own.sent)[to]
        asking = messages[:n] + (messages[n]._replace(asks=True),)
        return [] if messages[n].asks else [own._replace(sent=put(own.sent, to, asking))]

    def next_states(self, state):
        for rank in range(self.ranks):
            commanded = self.commanded(state, rank)
            others = [*self.arrivals(state, rank), *self.quiet(state, rank)]
            others += self.waiting(state[rank], commanded) if self.either else []
            for own in [commanded, *others] if commanded else others:
                yield state[:rank] + (own,) + state[rank + 1:]

    def report(self, state, cells):
        lines = []
        for rank, own in enumerate(state):
            lines += [f"{rank} {line} {answer}" for line, answer in own.told]
            if own.at < len(self.commands[rank]):
                lines.append(f"{rank} {self.commands[rank][own.at][0]} waits")
        is_done = all(own.at == len(self.commands[rank]) for rank, own in enumerate(state))
        total = self.ranks * cells
        return "\n".join([*lines, f"cells {total} home {total}", "done" if is_done else "stuck", ""])


class TooMany(Exception):
    pass


def reports(script, eager=1024, cells=CELLS, limit=200_000, either=False):
    """All reports of the script's runs, in the order of their bytes, also those where each standard send may wait, if either
    is asked for. A run is at rest where no event may come."""
    world = World(script, eager, either)
    start = (START,) * world.ranks
    met, left, found = {start}, [start], set()
    while left:
        state = left.pop()
        following = list(world.next_states(state))
        if not following:
            found.add(world.report(state, cells))
        for it in following:
            if it not in met:
                met.add(it)
                left.append(it)
        if len(met) > limit:
            raise TooMany(len(met))
    return sorted(found)
