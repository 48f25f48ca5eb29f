"""Random scripts, of a few names, tags and contexts, so that their commands meet."""


class Maker:
    """Commands of random ranks, any behind any other."""

    def __init__(self, rng, ranks, contexts=1, bodies=("x", "xaa", "xbb", "xaabb", "g3")):
        self.rng, self.ranks, self.contexts, self.bodies = rng, ranks, contexts, bodies

    def pick(self):
        source = self.rng.choice(["any", self.rng.randrange(self.ranks)])
        return f"{source} {self.rng.choice(['any', 0, 1])} {self.rng.randrange(self.contexts)}"

    def send(self, word, name):
        to, tag, ctx = self.rng.randrange(self.ranks), self.rng.randrange(2), self.rng.randrange(self.contexts)
        return f"{word} {name} {to} {tag} {ctx} {self.rng.choice(self.bodies)}"

    def command(self, words):
        word, name, handle = self.rng.choice(words), self.rng.randrange(4), self.rng.randrange(2)
        if word in ("isend", "issend"):
            return self.send(word, name)
        return {
            "irecv": f"irecv {name} {self.pick()} {self.rng.choice([0, 4, 4, 4])}",
            "probe": f"probe {self.pick()}",
            "await": f"await {self.pick()}",
            "mprobe": f"mprobe {handle} {self.pick()}",
            "mrecv": f"mrecv {name} {handle} 4",
        }.get(word, f"{word} {name}")

    def script(self, lines, words):
        text = [f"{self.rng.randrange(self.ranks)}: {self.command(words)}" for _ in range(lines)]
        return "\n".join([f"ranks {self.ranks}", *text]) + "\n"


WORDS = ("isend", "isend", "issend", "irecv", "irecv", "wait", "wait", "test", "probe", "await", "cancel", "mprobe", "mrecv")


def tiny(rng):
    """For a search with nothing left out: five to eleven lines."""
    return Maker(rng, rng.choice([1, 2, 2, 3])).script(rng.randint(5, 11), WORDS)


BODIES = ("x", "x00", "xaa", "xaabb", "g9", "g100", "g1024", "g1025", "g4097", "g70000")


def received(rng, name, source, tag, ctx, is_sent):
    """A receive of this message, or of more, and looks at it before; `is_sent` says that one may wait for it."""
    pick = f"{source if rng.random() < 0.8 else 'any'} {tag if rng.random() < 0.8 else 'any'} {ctx}"
    looks = rng.choice([[], [], [f"probe {pick}"], [f"await {pick}"] * is_sent])
    if is_sent and rng.random() < 0.15:
        return [f"await {pick}", f"mprobe {name} {pick}", f"mrecv {name} {name} 100000"]
    return [*looks, f"irecv {name} {pick} {rng.choice([0, 8, 100000, 100000, 100000])}"]


def larger(rng):
    """Two to six ranks, up to twenty messages, each with a receive that selects it. Each rank starts all, with some tests
    between, and then waits for all, so most of them come to their end."""
    ranks, contexts, sends_first = rng.randint(2, 6), rng.choice([1, 1, 2]), rng.random() < 0.6
    parts = [[] for _ in range(ranks)]
    for name in range(rng.randint(2, 20)):
        source, to, tag, ctx = rng.randrange(ranks), rng.randrange(ranks), rng.randrange(3), rng.randrange(contexts)
        word = rng.choice(["isend", "isend", "issend"])
        parts[source].append([f"{word} {name} {to} {tag} {ctx} {rng.choice(BODIES)}"])
        parts[to].append(received(rng, 100 + name, source, tag, ctx, sends_first))
    lines = []
    for rank, each in enumerate(parts):
        each.sort(key=lambda it: (sends_first and "send" not in it[0], rng.random()))
        started = [line for part in each for line in part]
        names = [line.split(" ")[1] for line in started if line.split(" ")[0] not in ("probe", "await", "mprobe")]
        started += [f"test {rng.choice(names)}" for _ in range(2) if names]
        lines += [f"{rank}: {it}" for it in [*started, *(f"wait {name}" for name in names)]]
    return "\n".join([f"ranks {ranks}", *lines]) + "\n"


def forced(rng):
    """All messages are there before their receiver looks: every sender sends, then says so by a last message, and the
    receiver awaits each of these before its wildcards."""
    ranks = rng.randint(3, 5)
    lines, counts = [f"ranks {ranks}"], []
    for rank in range(1, ranks):
        counts.append(rng.randint(1, 3))
        for name in range(counts[-1]):
            lines.append(f"{rank}: isend {name} 0 {rng.randrange(2)} 0 x{rank:02x}{name:02x}")
        lines.append(f"{rank}: isend 9 0 7 0 x")
    lines += [f"0: await {rank} 7 0" for rank in range(1, ranks)]
    for name in range(sum(counts)):
        source = rng.choice(["any", "any", "any", rng.randrange(1, ranks)])
        pick = f"{source} {rng.choice(['any', 0, 1])} 0"
        lines += rng.sample([f"0: probe {pick}", f"0: irecv {name} {pick} 8"], rng.randint(1, 2))
    lines += [f"0: test {name}" for name in range(sum(counts))]
    for rank, count in enumerate(counts, 1):
        lines += [f"{rank}: wait {name}" for name in [*range(count), 9]]
    return "\n".join(lines) + "\n"
