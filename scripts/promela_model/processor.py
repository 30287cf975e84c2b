"""The script of a processor as a process of Promela: each statement that is a step is a turn of its slot."""

from typing import NamedTuple

from promela_model.configuration import Configuration, Mailbox
from promela_model.cycles import Board, Transfer, local_of, refusal, request_of, transfer_of
from promela_model.lines import Line
from promela_model.memory import Memory, Reply, effect, equal, number, set_bytes, set_number
from promela_model.tables import RETRIED, STAGES, first_after

LOCAL = ("lr", "lw", "lm")
GOOD = {"r": "read", "br": "read", "lr": "read", "m": "old", "lm": "old"}
TYPES = {"failed": "int", "hit": "bool", "p": "int", "t": "int", "sum": "int"}


class Plan(NamedTuple):
    """A line with its refusal, or else its transfer, which a put and a take have not."""

    line: Line
    refused: str | None
    transfer: Transfer | None


def plan(config: Configuration, own: Board, line: Line) -> Plan:
    """What a line is to do: vme_line_task.line_attempt."""
    if line.word in ("put", "take"):
        return Plan(line, None, None)
    if line.word in LOCAL:
        return Plan(line, None, local_of(own, line))
    request = request_of(line)
    refused = refusal(request)
    return Plan(line, refused, None if refused else transfer_of(config.boards, request))


class Way(NamedTuple):
    """What may follow the release of the bus: a condition, statements of that step, and the label that is next."""

    guard: str
    sets: list[str]
    to: str


class Processor:
    """The process of a slot: its text, its variables, and the reply of each of its lines.

    A reply is a list of pairs, a word and the bytes after it; with more than one, a variable says which one it is."""

    def __init__(self, config: Configuration, memory: Memory, own: Board, plans: list[Plan]):
        self.config, self.memory, self.own = config, memory, own
        self.text: list[str] = []
        self.replies: dict[int, list[tuple[str, list[str]]]] = {}
        self.globals: list[str] = []
        self.locals: set[str] = set()
        self.on_bus = False
        going = [it for it in plans if not it.refused]
        labels = [f"line_{it.line.number}" for it in going] + ["end_script"]
        self.is_target = False
        for self.place, it in enumerate(plans):
            self.text.append(f"    /* {it.line.number}: {it.line.text} */")
            if it.refused:
                self.replies[it.line.number] = [(f"refused {it.refused}", [])]
                continue
            self.next = labels[1 + going.index(it)]
            self.line(it)
        self.has_turns = bool(going)

    def use(self, name: str) -> str:
        """A variable of the process."""
        self.locals.add(name)
        return name

    def step(self, statements: list[str], guard: str = "") -> str:
        """One turn."""
        if not statements:
            return guard or "true"
        return f"d_step {{ {guard}{' -> ' if guard else ''}{'; '.join(statements)} }}"

    def ends(self) -> list[str]:
        """What the last step of a line does besides: after the last line of the script the slot has ended."""
        return ["ended++"] if self.next == "end_script" else []

    def request(self) -> str:
        """The turns from the request of the bus to its grant."""
        self.on_bus = True
        return f"request({self.own.slot}, waits{self.own.slot}, {first_after(self.config.arbiter, self.own.level)});"

    def line(self, it: Plan) -> None:
        """The turns of a line that is not refused. Promela has no jump to a `d_step`, so one that is a target stands in an `if`."""
        reply = Reply(self.own.slot, it.line.number)
        is_staged = it.line.word in STAGES and not (it.transfer and it.transfer.berr is not None)
        if is_staged or self.is_target:
            self.text.append(f"line_{it.line.number}:")
        if is_staged:
            self.staged(it, reply)
        else:
            self.plain(it, reply)
        self.is_target = is_staged
        if reply.size:
            self.globals.append(f"byte {reply.name}[{reply.size}];")

    def plain(self, it: Plan, reply: Reply) -> None:
        """A transfer or a local access whose reply has one form."""
        steps = [effect(self.memory, access, reply) for access in it.transfer.accesses]
        if any("sum = 0" in step for step in steps):
            self.use("sum")
        if it.transfer.berr is not None and it.transfer.is_selected:
            steps.append([])
        if it.line.word in LOCAL:
            turn = self.step(steps[0] + self.ends())
            self.text.append(f"    if :: {turn} fi;" if self.is_target else f"    {turn};")
        else:
            turns = [*map(self.step, steps), self.step(["release()", *self.ends()])]
            self.text += [f"    {self.request()}", *(f"    {turn};" for turn in turns)]
        word = GOOD.get(it.line.word, "done") if it.transfer.berr is None else f"berr {it.transfer.berr}"
        self.replies[it.line.number] = [(word, reply.bytes)]

    def staged(self, it: Plan, reply: Reply) -> None:
        """A line of several transfers or attempts, by the table of its stages."""
        stages = STAGES[it.line.word]
        words = sorted({to for stage in stages.values() for _, to in stage.then if to not in stages})
        self.status = {word: place for place, word in enumerate(words)} if len(words) > 1 else {}
        self.retries = self.config.tries > 1 and not RETRIED.isdisjoint(words)
        if self.retries:
            self.use("failed")
        for place, (name, stage) in enumerate(stages.items()):
            following = self.label(it.line, list(stages)[place + 1]) if place + 1 < len(stages) else self.next
            if place:
                self.text.append(f"{self.label(it.line, name)}:")
            self.text += [f"    {self.request()}", f"    {self.step(self.datum(it, stage.access, reply))};"]
            ways = [way for when, to in stage.then for way in self.ways(it, self.condition(it, when, stage.then), to)]
            self.text += self.choice(ways, following)
        self.replies[it.line.number] = [(word, reply.bytes if word == "took" else []) for word in words]
        if self.status:
            self.globals.append(f"byte s_{self.own.slot}_{it.line.number};")

    def choice(self, ways: list[Way], following: str) -> list[str]:
        """The release of the bus, and what follows it."""
        turns = [self.step(["release()", *way.sets], way.guard) for way in ways]
        jumps = ["" if way.to == following else f"goto {way.to};" for way in ways]
        if len(ways) == 1:
            return [f"    {turns[0]};", *(f"    {jump}" for jump in jumps if jump)]
        options = (f"    :: {turn}; {jump}".rstrip("; ") for turn, jump in zip(turns, jumps))
        return ["    if", *options, "    fi;"]

    def label(self, line: Line, stage: str) -> str:
        """Where a stage begins; the first one of a line begins where the line does."""
        return f"line_{line.number}" + ("" if stage == next(iter(STAGES[line.word])) else f"_{stage}")

    def condition(self, it: Plan, when: str, then: tuple[tuple[str, str], ...]) -> str:
        """A condition of a stage; one without a name is that no other holds."""
        if not when:
            return " && ".join(f"!({self.condition(it, other, then)})" for other, _ in then if other)
        slots = self.box(it).slots if it.line.word in ("put", "take") else 0
        return {"held": "hit", "equal": "hit", "full": f"p - t >= {slots}", "empty": "p == t"}[when]

    def box(self, it: Plan) -> Mailbox:
        """The mailbox that a line names."""
        return self.config.mailboxes[it.line.mailbox - 1]

    def ways(self, it: Plan, guard: str, to: str) -> list[Way]:
        """What follows under a condition: the next stage; or the reply, or another attempt while some are left."""
        if to in STAGES[it.line.word]:
            return [Way(guard, [], self.label(it.line, to))]
        used = {"put": ("hit", "p", "t"), "take": ("hit", "p", "t"), "unlock": ()}.get(it.line.word, ("hit",))
        resets = [f"{name} = 0" for name in used]
        sets = resets + ([f"s_{self.own.slot}_{it.line.number} = {self.status[to]}"] if self.status else []) + self.ends()
        if not self.retries:
            return [Way(guard, sets, self.next)]
        sets.append("failed = 0")
        if to not in RETRIED:
            return [Way(guard, sets, self.next)]
        before = f"{guard} && " if guard else ""
        again = Way(f"{before}failed + 1 < {self.config.tries}", [*resets, "failed++"], f"line_{it.line.number}")
        return [again, Way(f"{before}failed + 1 == {self.config.tries}", sets, self.next)]

    def datum(self, it: Plan, access: str, reply: Reply) -> list[str]:
        """The statements of the datum of a stage."""
        memory, box = self.memory, None if it.transfer else self.box(it)
        cells = memory.cells(it.transfer.accesses[0]) if it.transfer else []
        lock = cells[:1] or [memory.lock(box)]
        if access == "compare":
            return [f"{self.use('hit')} = ({equal(cells, it.line.data)})"]
        if access == "set lock":
            return [f"{self.use('hit')} = ({lock[0]} >= 128)", f"{lock[0]} = {lock[0]} | 128"]
        if access == "clear lock":
            return set_bytes(lock, b"\0")
        counts = {"put": self.use("p"), "take": self.use("t")}
        what, _, of = access.partition(" ")
        if of == "word":
            word = memory.word(box, counts[it.line.word])
            return set_bytes(word, it.line.data) if what == "write" else reply.keep(word)
        count = of.removesuffix(" count")
        cells = memory.count(box, count)
        return [f"{counts[count]} = {number(cells)}"] if what == "read" else set_number(cells, f"{counts[count]} + 1")

    def last(self) -> list[str]:
        """What follows the last line."""
        return ["    false"]

    def process(self) -> list[str]:
        """The text of the process."""
        variables = [f"    {TYPES[name]} {name};" for name in TYPES if name in self.locals]
        return ["", f"active proctype slot{self.own.slot}() {{", *variables, *self.text, "end_script:", *self.last(), "}"]
