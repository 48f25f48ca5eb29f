"""What MPI promises of matching, as a machine, guided by what the ranks told.

A message is pending from its send until a receive takes it, a matched probe claims it or its sender's cancel withdraws
it: there are no arrivals, so no order in which messages of several senders, tags or communicators come. What MPI fixes:

  3.2.4  a receive and a look select by source, tag and communicator; a receive shows source, tag and bytes as sent
  3.4    a synchronous send ends only once a receive took its message
  3.5    of the messages of one sender in one communicator that a receive selects, it takes the first
  3.5    of the open receives that select a message, the first takes it
  3.5    a receive and a message that can be paired are paired in the end; a wait for what is complete ends (3.7.4)
  3.8.1  a look shows a message that a receive started there would take; `await` ends once there is one
  3.8.2  a claimed message is seen and taken by its own receive alone
  3.8.4  a cancelled request takes or sends nothing, any other goes on as if it had not been marked; its wait ends

What MPI leaves open, and this does: whether a standard send waits for its receive (3.4), when a test says that a request
is complete (3.7.3), when a look finds what was sent (3.8.1), of which sender a wildcard takes or shows a message (3.5),
whether a send that is marked is withdrawn, and when a cancel takes effect (3.8.4).
"""
from __future__ import annotations

from collections.abc import Callable, Iterator

from guide import BY_NAME, Guide
from scripts import Command, Message, Pattern, Script


class Rules:
    """The script, what was told of it, and whether the length that a cut receive tells is compared."""

    def __init__(self, script: Script, guide: Guide, any_cut: bool):
        self.script, self.guide, self.any_cut = script, guide, any_cut

    def shows(self, answer: str, message: Message, receive: int) -> bool:
        """Whether a receive that took this message tells this (3.2.4, 3.2.5)."""
        due = message.received(self.script.at_line[receive].capacity)
        if self.any_cut and due.startswith("cut ") and answer.startswith("cut "):
            # MPI says nothing of the length behind MPI_ERR_TRUNCATE
            words = answer.split(" ")
            return len(words) == 4 and words[:3] == due.split(" ")[:3] and words[3].isdigit()
        return answer == due


class World:
    """Where all ranks are, their requests, and the messages that are under way."""

    def __init__(self, rules: Rules):
        ranks = range(rules.script.ranks)
        self.rules = rules
        self.at = [0 for _ in ranks]
        self.pending: list[list[int]] = [[] for _ in ranks]  # messages to each rank, by lines
        self.open: list[list[int]] = [[] for _ in ranks]  # receives of each rank without a message, by lines
        self.partner: dict[int, int] = {}  # the message of each live receive that has one
        self.claims: dict[int, int] = {}  # the message of each matched probe whose handle is live
        self.recalled: set[int] = set()  # live sends that are marked for cancellation
        self.withdrawn: set[int] = set()
        self.taken: set[int] = set()  # messages that a receive took

    def copy(self) -> World:
        other = World.__new__(World)
        other.rules, other.at = self.rules, self.at.copy()
        other.pending, other.open = [it.copy() for it in self.pending], [it.copy() for it in self.open]
        other.partner, other.claims = self.partner.copy(), self.claims.copy()
        other.recalled, other.withdrawn, other.taken = self.recalled.copy(), self.withdrawn.copy(), self.taken.copy()
        return other

    def key(self) -> tuple:
        """Equal for worlds that go on alike. Which message a receive has is compared where it is still asked for: a pair
        of an irecv shows what was told, or nothing."""
        guide, patterns = self.rules.guide, self.rules.script.patterns
        partners = ((receive, message if receive in guide.standing or receive not in patterns else None)
                    for receive, message in self.partner.items())
        return (tuple(self.at), tuple(map(tuple, self.pending)), tuple(map(tuple, self.open)), frozenset(partners),
                frozenset(self.claims.items()), frozenset(self.recalled), frozenset(self.withdrawn))

    def message(self, line: int) -> Message:
        return self.rules.script.messages[line]

    def are_told(self) -> bool:
        """All ranks told all that they have to tell."""
        return all(at == len(steps) for at, steps in zip(self.at, self.rules.guide.steps))

    # Messages and receives

    def is_selected(self, rank: int, message: Message) -> bool:
        """Whether an open receive selects the message."""
        patterns = self.rules.script.patterns
        return any(patterns[it].selects(message) for it in self.open[rank])

    def visible(self, rank: int, pattern: Pattern) -> Iterator[Message]:
        """Of each sender the first pending message that a look selects, where no open receive will have it."""
        senders = set()
        for line in self.pending[rank]:
            message = self.message(line)
            if message.source not in senders and pattern.selects(message):
                senders.add(message.source)
                if not self.is_selected(rank, message):
                    yield message

    def pairs(self, rank: int) -> Iterator[tuple[int, Message]]:
        """Each receive and message that may be paired next, by MPI's rules alone."""
        patterns = self.rules.script.patterns
        for place, line in enumerate(self.pending[rank]):
            message = self.message(line)
            receive = next((it for it in self.open[rank] if patterns[it].selects(message)), None)
            if receive is None:
                continue
            earlier = map(self.message, self.pending[rank][:place])
            if not any(it.source == message.source and patterns[receive].selects(it) for it in earlier):
                yield receive, message

    def guided_pairs(self, rank: int) -> Iterator[tuple[int, Message]]:
        """Those of them that don't belie what was told."""
        guide = self.rules.guide
        for receive, message in self.pairs(rank):
            end = guide.ends.get(receive)
            if guide.never_receives(receive) or guide.is_withdrawn(message.line):
                continue
            if end is None or self.rules.shows(end, message, receive):
                yield receive, message

    def is_sure(self, receive: int, message: Message) -> bool:
        """No other pair of this receive, and nothing else of this message, can agree with what was told: the receive
        takes of one sender only, and neither can be cancelled."""
        guide = self.rules.guide
        one_sender = self.rules.script.patterns[receive].source is not None or receive in guide.ends
        return one_sender and not guide.may_be_cancelled(receive) and not guide.may_be_cancelled(message.line)

    def pair(self, rank: int, receive: int, message: int) -> None:
        self.open[rank].remove(receive)
        self.pending[rank].remove(message)
        self.partner[receive] = message
        self.taken.add(message)

    # Commands

    def next_step(self, rank: int) -> tuple[Command, str | None] | None:
        steps = self.rules.guide.steps[rank]
        return steps[self.at[rank]] if self.at[rank] < len(steps) else None

    def run(self, rank: int) -> bool:
        """Runs the next command of a rank where it can answer what it told and nothing is lost by it."""
        step = self.next_step(rank)
        if step is None:
            return False
        command, answer = step
        if command.word == "mprobe" and self.is_unsure_claim(command, answer):
            return False
        return self.answer(command, answer)

    def is_unsure_claim(self, command: Command, answer: str) -> bool:
        message = self.shown(command, answer)
        return message is not None and self.rules.guide.may_be_cancelled(message.line)

    def answer(self, command: Command, answer: str | None) -> bool:
        """Runs a command where it can answer this; else nothing changes."""
        if answer is None:
            self.start(command)
        elif answer not in BY_NAME[command.word] and not self.ANSWERS[command.word](self, command, answer):
            return False
        self.at[command.rank] += 1
        return True

    def start(self, command: Command) -> None:
        if command.word == "irecv":
            self.open[command.rank].append(command.line)
        elif command.word == "mrecv":
            message = self.claims.pop(self.rules.guide.claim_of[command.line])
            self.partner[command.line] = message
            self.taken.add(message)
        else:
            pending = self.pending[self.message(command.line).to]
            pending.append(command.line)
            pending.sort()

    def end(self, command: Command, answer: str) -> bool:
        """A wait or a test."""
        if answer == "no":
            return True
        start = self.rules.guide.start_of[command.line]
        if start in self.rules.script.messages:
            return self.end_send(start, answer)
        return self.end_receive(command.rank, start, answer)

    def end_send(self, start: int, answer: str) -> bool:
        if answer == "cancelled":
            return start in self.withdrawn
        may_end = start in self.taken or not self.message(start).is_synchronous
        if answer != "sent" or start in self.withdrawn or not may_end:
            return False
        self.recalled.discard(start)
        return True

    def end_receive(self, rank: int, start: int, answer: str) -> bool:
        message = self.partner.get(start)
        if answer == "cancelled":
            return message is None and start not in self.open[rank]
        if message is None or not self.rules.shows(answer, self.message(message), start):
            return False
        del self.partner[start]
        return True

    def shown(self, command: Command, answer: str) -> Message | None:
        """The message that a look shows by this answer."""
        pattern = self.rules.script.patterns[command.line]
        return next((it for it in self.visible(command.rank, pattern) if it.seen() == answer), None)

    def look(self, command: Command, answer: str) -> bool:
        if answer == "none":
            return command.word != "await"
        message = self.shown(command, answer)
        if message is None:
            return False
        if command.word == "mprobe":
            if self.rules.guide.is_withdrawn(message.line):
                return False
            self.pending[command.rank].remove(message.line)
            self.claims[command.line] = message.line
        return True

    def cancel(self, command: Command, answer: str) -> bool:
        start = self.rules.guide.start_of[command.line]
        if start in self.rules.script.messages:
            if answer == "asked" and start not in self.withdrawn:
                self.recalled.add(start)
            return answer == "asked"
        if answer == "late":
            return start in self.partner
        if answer not in ("done", "asked") or (answer == "done" and start in self.partner):
            return False
        if start in self.open[command.rank] and self.rules.guide.never_receives(start):
            self.open[command.rank].remove(start)
        return True

    ANSWERS: dict[str, Callable[[World, Command, str], bool]] = {
        "wait": end, "test": end, "probe": look, "await": look, "mprobe": look, "cancel": cancel}

    # What may happen next

    def settle(self) -> None:
        """Makes all moves that lose nothing: what else may happen is the same behind them."""
        ranks = range(self.rules.script.ranks)
        while any([self.run_on(rank) for rank in ranks]) or any([self.pair_surely(rank) for rank in ranks]):
            pass

    def run_on(self, rank: int) -> bool:
        ran = False
        while self.run(rank):
            ran = True
        return ran

    def pair_surely(self, rank: int) -> bool:
        sure = next((it for it in self.guided_pairs(rank) if self.is_sure(*it)), None)
        if sure is None:
            return False
        self.pair(rank, sure[0], sure[1].line)
        return True

    def choices(self) -> Iterator[World]:
        """Each world that may be next."""
        for rank in range(self.rules.script.ranks):
            step = self.next_step(rank)
            if step and step[0].word == "mprobe":
                other = self.copy()
                if other.answer(*step):
                    yield other
            for receive, message in self.guided_pairs(rank):
                other = self.copy()
                other.pair(rank, receive, message.line)
                yield other
            for receive in self.open[rank]:
                if self.is_marked(rank, receive):
                    other = self.copy()
                    other.open[rank].remove(receive)
                    yield other
        yield from map(self.without, self.recalled_and_pending())

    def is_marked(self, rank: int, receive: int) -> bool:
        """A cancel of the receive was asked, and what became of it is not told."""
        guide = self.rules.guide
        return guide.may_be_cancelled(receive) and any(
            command.word == "cancel" and guide.start_of.get(command.line) == receive
            for command, _ in guide.steps[rank][:self.at[rank]])

    def recalled_and_pending(self) -> list[int]:
        return [it for it in self.recalled
                if it in self.pending[self.message(it).to] and self.rules.guide.ends.get(it) != "sent"]

    def without(self, line: int) -> World:
        """A send that is marked is withdrawn (3.8.4)."""
        other = self.copy()
        other.pending[self.message(line).to].remove(line)
        other.recalled.discard(line)
        other.withdrawn.add(line)
        return other

    # What a rank that stands at a command may answer, or do for ever

    def tellings(self, command: Command) -> set[str]:
        """All answers that a look, a wait or a test can have here, where names allow any but one."""
        if command.word in ("probe", "await", "mprobe"):
            seen = {it.seen() for it in self.visible(command.rank, self.rules.script.patterns[command.line])}
            return seen if command.word == "await" else seen | {"none"}
        start = self.rules.guide.start_of[command.line]
        if start in self.rules.script.messages:
            ends = {it for it in ("sent", "cancelled") if self.copy().end_send(start, it)}
        elif start in self.partner:
            capacity = self.rules.script.at_line[start].capacity
            ends = {self.message(self.partner[start]).received(capacity)}
        else:
            ends = set() if start in self.open[command.rank] else {"cancelled"}
        return ends | {"no"} if command.word == "test" else ends

    def may_wait(self, command: Command) -> bool:
        """Whether a rank may wait at this command for ever, where nothing more can happen."""
        if command.word == "await":
            return not any(True for _ in self.visible(command.rank, self.rules.script.patterns[command.line]))
        start = self.rules.guide.start_of.get(command.line)
        if command.word != "wait" or start is None:
            return False
        if start in self.rules.script.messages:
            return start not in self.taken and start not in self.withdrawn
        return start in self.open[command.rank]
