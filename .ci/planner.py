"""Random plans, each with the report that it has (docs/use/plans.md)."""
from lawful import body_of


class Planner:
    """One random plan, and its report. Its lines, in their order, are one way in which it can run to its end."""

    def __init__(self, rng):
        self.rng = rng
        self.ranks = rng.choice([1, 2, 2, 3, 4, 8])
        self.lines, self.told = [], []
        self.pairs = [self.pair(k) for k in range(rng.choice([1, 1, 2, 3, 6]))]

    def say(self, rank, text):
        self.lines.append(f"{rank}: {text}")
        return len(self.lines) + 1

    def body(self):
        few = self.rng.choice([0, 1, 5, 40, 257, 1024, 1025, 3000])
        return f"g{few if self.rng.random() < 0.4 else self.rng.randint(0, 40)}"

    def pair(self, k):
        """The inits of both ends, and what became of them: the body that was sent, whether a receive is open, the parts
        that are not ready."""
        rng, parts = self.rng, self.rng.choice([0, 0, 1, 2, 3, 16])
        it = {"from": rng.randrange(self.ranks), "to": rng.randrange(self.ranks), "tag": k, "parts": parts, "name": k,
              "cap": rng.choice([0, 8, 400, 1_048_576]), "body": self.body(), "sent": None, "open": False, "ready": set()}
        ways, of = ("psendinit", "precvinit") if parts else ("sendinit", "recvinit"), f" {parts}" if parts else ""
        ends = [(it["from"], f"{ways[0]} {2 * k} {it['to']} {k} 0{of} {it['body']}"),
                (it["to"], f"{ways[1]} {2 * k + 1} {it['from']} {k} 0{of} {it['cap']}")]
        for rank, text in rng.sample(ends, 2):
            self.say(rank, text)
        return it

    def send(self, it):
        if self.rng.random() < 0.3:
            it["body"] = self.body()
            self.say(it["from"], f"fill {2 * it['name']} {it['body']}")
        it["sent"], it["ready"] = it["body"], {*range(it["parts"])}
        self.say(it["from"], f"start {2 * it['name']}")

    def ready(self, it):
        part = self.rng.choice(sorted(it["ready"]))
        it["ready"].discard(part)
        self.say(it["from"], f"ready {2 * it['name']} {part}")

    def receive(self, it):
        it["open"] = True
        self.say(it["to"], f"start {2 * it['name'] + 1}")

    def arrived(self, it):
        line = self.say(it["to"], f"arrived {2 * it['name'] + 1} {self.rng.randrange(it['parts'])}")
        self.told.append((it["to"], line, ("yes", "no") if it["open"] else ("yes",)))

    def both(self, it):
        """Waits at both ends, in some order."""
        def sent():
            self.told.append((it["from"], self.say(it["from"], f"wait {2 * it['name']}"), ("sent",)))

        def got():
            text, parts = body_of(it["sent"]), it["parts"] or 1
            size = len(text) // 2
            cut = any((k + 1) * size // parts - k * size // parts > it["cap"] for k in range(parts))
            shown = f"cut {it['from']} {it['tag']} {size}" if cut else f"got {it['from']} {it['tag']} {size} x{text}"
            self.told.append((it["to"], self.say(it["to"], f"wait {2 * it['name'] + 1}"), (shown,)))

        for end in self.rng.sample([sent, got], 2):
            end()
        it["sent"], it["open"] = None, False

    def step(self, it):
        """One line more of a pair, or its waits."""
        ways = []
        if it["sent"] is None:
            ways.append(self.send)
        elif it["ready"]:
            ways.append(self.ready)
        if not it["open"]:
            ways.append(self.receive)
        if it["sent"] is not None and not it["ready"] and it["open"]:
            ways.append(self.both)
        if it["parts"] and self.rng.random() < 0.2:
            ways = [self.arrived]
        self.rng.choice(ways)(it)

    def script(self):
        for _ in range(self.rng.choice([3, 8, 20, 40])):
            self.step(self.rng.choice(self.pairs))
        for it in self.pairs:
            while it["sent"] is not None or it["open"]:
                self.step(it)
        return "\n".join([f"ranks {self.ranks}"] + self.lines) + "\n"

    def judge(self, text, cells):
        """What is wrong with a report."""
        lines = text.splitlines()
        want = sorted(self.told, key=lambda it: it[:2])
        ends = [f"cells {self.ranks * cells} home {self.ranks * cells}", "done"]
        if len(lines) != len(want) + 2 or lines[-2:] != ends:
            return f"{len(lines)} lines for {len(want) + 2}, the last are {lines[-2:]}"
        for line, (rank, number, answers) in zip(lines, want):
            if line not in [f"{rank} {number} {it}" for it in answers]:
                return f"{line[:80]!r} in place of {rank} {number} {answers[0][:80]!r}"
        return None
