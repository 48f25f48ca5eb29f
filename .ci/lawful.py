"""Judges a trace against MPI's matching, with plain lists and nothing else: each rank's events are gone through in order,
and each pair, answer and body has to be what the rules say (docs/know/definitions.md). It shares no line with the program."""
import collections

DONE, LATE = "done", "late"
# The bytes of a body `gN` begin again after so many.
PERIOD = 251
PATTERN = "".join(f"{(31 * k + 7) % PERIOD:02x}" for k in range(PERIOD))


class Unlawful(Exception):
    pass


def need(holds, *what):
    if not holds:
        raise Unlawful(" ".join(str(word) for word in what))


def body_of(word):
    if word[0] == "x":
        return word[1:]
    length = int(word[1:])
    return (PATTERN * (length // PERIOD + 1))[:2 * length]


def fits(pick, env):
    """Whether a pattern of source, tag and context selects a message."""
    return pick[0] in ("any", env[0]) and pick[1] in ("any", env[1]) and pick[2] == env[2]


class Rank:
    """What a rank's history tells so far."""

    def __init__(self, me, commands):
        self.me, self.commands = me, commands
        self.posts = {}  # number: [pattern, capacity, partner, is cancelled]
        self.came = {}  # (from, n) in order: [envelope, is taken, withdrawn or claimed]
        self.sends = {}  # to: [[stamp, tag, ctx, len, how, line]]
        self.arrived = {}  # from: [[stamp, tag, ctx, len, how]]
        self.whole, self.out, self.recalled = set(), set(), set()
        self.undone, self.withdrawn = {}, {}  # message: done or late
        self.started = {}  # line: request
        self.claims = {}  # line: message
        self.names, self.handles = {}, {}
        self.at, self.stamp, self.cancelled = 0, 0, None
        self.told = []  # (line, answer, the message whose bytes it shows)

    def first_free(self, pick):
        return next((a for a, (env, taken) in self.came.items() if not taken and fits(pick, env)), None)

    def pair(self, number, message):
        self.posts[number][2] = message
        self.came[message][1] = True

    def starts(self, line, words, args):
        """An event of a start stands just before its answer, with the arguments of its command."""
        number, word, given = self.commands[self.at]
        need(number == line and word in words and given[1:1 + len(args)] == args, "start of line", line)

    def on_send(self, stamp, to, n, tag, ctx, length, how, line):
        sent = self.sends.setdefault(to, [])
        need(len(sent) == int(n), "number of a send", n)
        self.starts(line, ["isend", "issend"], [to, tag, ctx])
        sent.append([stamp, tag, ctx, length, how, line])
        self.started[line] = ("send", to, n)

    def on_post(self, stamp, number, source, tag, ctx, cap, line):
        need(int(number) == len(self.posts), "number of a post", number)
        self.starts(line, ["irecv"], [source, tag, ctx, cap])
        self.posts[number] = [(source, tag, ctx), int(cap), None, False]
        self.started[line] = ("receive", number)
        message = self.first_free((source, tag, ctx))
        if message:
            self.pair(number, message)

    def on_arrive(self, stamp, source, n, tag, ctx, length, how):
        came = self.arrived.setdefault(source, [])
        need(len(came) == int(n), "number of an arrival", n)
        came.append([stamp, tag, ctx, length, how])
        env = (source, tag, ctx, length)
        self.came[source, n] = [env, False]
        for number, (pick, _, partner, cancelled) in self.posts.items():
            if partner is None and not cancelled and fits(pick, env):
                return self.pair(number, (source, n))

    def on_whole(self, stamp, source, n):
        need((source, n) in self.came and (source, n) not in self.whole, "whole", source, n)
        self.whole.add((source, n))

    def on_out(self, stamp, to, n):
        need((to, n) not in self.out and int(n) < len(self.sends.get(to, [])), "out", to, n)
        self.out.add((to, n))

    def on_cancel(self, stamp, number, end):
        need((end == DONE) == (self.posts[number][2] is None), "cancel", number, end)
        self.cancelled = self.at
        self.posts[number][3] = self.posts[number][3] or end == DONE

    def on_recall(self, stamp, to, n):
        need((to, n) not in self.recalled, "recall", to, n)
        self.recalled.add((to, n))

    def on_withdraw(self, stamp, source, n, end):
        need((end == DONE) == (not self.came[source, n][1]), "withdraw", source, n, end)
        need((source, n) not in self.withdrawn, "withdraw", source, n, "again")
        self.came[source, n][1] = True
        self.withdrawn[source, n] = end

    def on_undone(self, stamp, to, n, end):
        need((to, n) in self.recalled and (to, n) not in self.undone, "undone", to, n)
        self.undone[to, n] = end

    def on_claim(self, stamp, source, n, line):
        need(self.first_free(tuple(self.commands[self.at][2][1:])) == (source, n), "claim", source, n)
        self.came[source, n][1] = True
        self.claims[line] = (source, n)

    def on_match(self, stamp, number, source, n, cap, line):
        need(int(number) == len(self.posts), "number of a matched receive", number)
        need(self.handles.get(self.commands[self.at][2][1]) == (source, n), "matched receive of line", line)
        self.posts[number] = [None, int(cap), (source, n), False]
        self.started[line] = ("receive", number)

    def result(self, request):
        """What a request ends with, or None where it is not complete."""
        if request[0] == "send":
            to, n = request[1:]
            if self.undone.get((to, n)) == DONE:
                return "cancelled"
            owed = (to, n) in self.recalled and (to, n) not in self.undone
            return "sent" if (to, n) in self.out and not owed else None
        _, cap, message, cancelled = self.posts[request[1]]
        if cancelled:
            return "cancelled"
        if message is None or message not in self.whole:
            return None
        source, tag, _, length = self.came[message][0]
        return f"{'cut' if int(length) > cap else 'got'} {source} {tag} {length}"

    def seen(self, message):
        if message is None:
            return None
        source, tag, _, length = self.came[message][0]
        return f"seen {source} {tag} {length}"

    def answer(self, line, word, args):
        """The answer of a command, or None where it can't go on."""
        live = self.names.get(args[0])
        if word in ("isend", "issend", "irecv"):
            return "busy" if live else "started"
        if word == "mrecv":
            return "busy" if live else "started" if self.handles.get(args[1]) else "null"
        if word in ("wait", "test"):
            return "null" if not live else self.result(live) or ("no" if word == "test" else None)
        if word == "cancel":
            if not live or live[0] == "send":
                return "asked" if live else "null"
            return DONE if self.posts[live[1]][2] is None else LATE
        if word == "mprobe":
            return "busy" if self.handles.get(args[0]) else self.seen(self.claims.get(line)) or (
                "none" if self.first_free(tuple(args[1:])) is None else "a claim")
        return self.seen(self.first_free(tuple(args))) or ("none" if word == "probe" else None)

    def on_ran(self, stamp, line, *answer):
        number, word, args = self.commands[self.at]
        answer = " ".join(answer)
        need(number == line, "line", line, "ran in place of", number)
        need(self.answer(line, word, args) == answer, "line", line, "answers", answer)
        need(answer not in (DONE, LATE) or self.cancelled == self.at, "cancel of line", line)
        shown = None
        if answer == "started":
            self.names[args[0]] = self.started[line]
            if word == "mrecv":
                self.handles[args[1]] = None
        elif word in ("wait", "test") and answer not in ("null", "no"):
            request = self.names.pop(args[0])
            shown = self.posts[request[1]][2] if answer.startswith("got") else None
        elif word == "mprobe" and answer.startswith("seen"):
            self.handles[args[0]] = self.claims[line]
        if answer != "started":
            self.told.append((line, answer, shown))
        self.at += 1


def judge(script, trace, cells, eager):
    """Raises Unlawful where a trace is no lawful run at rest of the script."""
    lines = script.splitlines()
    ranks = int(lines[0].split()[1])
    each = [Rank(str(r), []) for r in range(ranks)]
    for number, text in enumerate(lines[1:], 2):
        who, word, *args = text.split(" ")
        each[int(who[:-1])].commands.append((str(number), word, args))
    told = trace.splitlines()
    events = [t for t in told if t.startswith("@")]
    need(told[:len(events)] == sorted(events, key=lambda t: int(t.split(" ")[1])), "events out of order")
    for text in events:
        _, who, stamp, kind, *rest = text.split(" ")
        rank = each[int(who)]
        need(int(stamp) > rank.stamp, "stamp", text)
        rank.stamp = int(stamp)
        getattr(rank, f"on_{kind}")(rank.stamp, *rest)
    pairs = {(it.me, to) for it in each for to in it.sends} | {(source, it.me) for it in each for source in it.arrived}
    for sender, receiver in pairs:
        sent, came = each[int(sender)].sends.get(receiver, []), each[int(receiver)].arrived.get(sender, [])
        need([s[1:5] for s in sent] == [a[1:] for a in came], "messages of", sender, "to", receiver)
        need(all(s[0] < a[0] for s, a in zip(sent, came)), "stamps of", sender, "to", receiver)
    check_rest(each, told, lines, ranks * cells)


def check_rest(each, told, lines, total):
    """The rest of the text is what the events tell, and no rank can go on."""
    text = pairs_of(each)
    stuck = False
    for rank in each:
        for line, answer, shown in rank.told:
            text.append(f"{rank.me} {line} {answer}" + (" x" + bytes_of(each, lines, rank, shown) if shown else ""))
        left = rank.commands[rank.at:]
        if left:
            need(rank.answer(*left[0]) is None, "rank", rank.me, "can go on")
            text.append(f"{rank.me} {left[0][0]} waits")
            stuck = True
        check_messages(rank, each)
    text += [f"cells {total} home {total}", "stuck" if stuck else "done"]
    for line, want in zip([t for t in told if not t.startswith("@")] + [""], text + [""]):
        need(line == want, "report:", line[:80], "in place of", want[:80])


def pairs_of(each):
    """How many packets each rank's history calls for to each other."""
    counts = collections.Counter()
    for rank in each:
        paired = {post[2] for post in rank.posts.values()}
        for to, sends in rank.sends.items():
            counts[rank.me, to] += sum(max(1, -(-int(it[3]) // 256)) if it[4] == "eager" else 1 for it in sends)
        for source, came in rank.arrived.items():
            counts[rank.me, source] += sum(it[-1] == "ask" and (source, str(n)) in paired for n, it in enumerate(came))
        counts.update((rank.me, other) for other, _ in [*rank.recalled, *rank.withdrawn])
    in_order = sorted(counts, key=lambda it: [*map(int, it)])
    return [f"pair {i} {j} {counts[i, j]}" for i, j in in_order if counts[i, j]]


def bytes_of(each, lines, rank, message):
    """The bytes of the body that was sent as this message."""
    source, n = message
    line = each[int(source)].sends[rank.me][int(n)][-1]
    return body_of(lines[int(line) - 1].split(" ")[-1])


def check_messages(rank, each):
    """Each eager message left and came whole; one sent by asking did so exactly where a receive took it. Each recall has
    its receiver's answer."""
    for to, n in rank.recalled:
        need(rank.undone.get((to, n)) == each[int(to)].withdrawn[rank.me, n], "recall of", rank.me, "to", to, n)
    for to, sent in rank.sends.items():
        receiver = each[int(to)]
        paired = {post[2] for post in receiver.posts.values()}
        for n, (_, _, _, _, how, _) in enumerate(sent):
            goes = how == "eager" or (rank.me, str(n)) in paired
            need(((to, str(n)) in rank.out) == goes, "out of", rank.me, "to", to, n)
            need(((rank.me, str(n)) in receiver.whole) == goes, "whole from", rank.me, "at", to, n)
