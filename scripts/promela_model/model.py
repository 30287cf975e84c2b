"""The model of a configuration, as the text of a file of Promela."""

from promela_model.configuration import Configuration
from promela_model.cycles import Access
from promela_model.memory import ZERO, Memory
from promela_model.processor import Plan, Processor, plan
from promela_model.refused import require
from promela_model.tables import LEVELS, first_after, level_order

ROW = 16
# The most bytes of memory and replies that a state may have, and the size of a state that pan is built with.
MOST_BYTES, STATE = 8192, 16384
HEAD = f"""/* A configuration as a model for SPIN, by scripts/promela. Each complete run prints an outcome, as a line:

       spin -a MODEL; cc -DSAFETY -DNOREDUCE -DVECTORSZ={STATE} -o pan pan.c; ./pan -n -m1000000 >found
       sed -n 's/^outcome: //p' found | sort -u; grep -E 'errors:|error:|Warning' found

   They are all if the last command prints `errors: 0` alone.
   A step of a process is a turn of its slot. A poll of the arbiter that waits changes nothing, so it is no step. */"""
REQUEST = """
/* a request on a free bus is granted; else the slot waits until it finds that it has the bus */
inline request(slot, waits, after) {
    if
    :: d_step { holder == 0 -> holder = slot; first = after }
    :: d_step { holder != 0 -> waits = 1 };
       holder == slot
    fi
}
"""


def grant(processors: list[Processor], arbiter: str, depth: int) -> list[str]:
    """A grant to the first of these processors that waits, if one does."""
    pad = "    " * depth
    if not processors:
        return [f"{pad}skip"]
    one = processors[0].own
    given = f"waits{one.slot} = 0; holder = {one.slot}; first = {first_after(arbiter, one.level)}"
    return [f"{pad}if", f"{pad}:: waits{one.slot} -> {given}", f"{pad}:: else ->", *grant(processors[1:], arbiter, depth + 1), f"{pad}fi"]


def release(processors: list[Processor], arbiter: str) -> list[str]:
    """The release of the bus: by the order of levels, and on one level by slot. vme_arbiter.next_request."""
    firsts = [3] if arbiter == "priority" else sorted(LEVELS)
    text = ["/* the bus goes to the next request, if there is one */", "inline release() {", "    holder = 0;", "    if"]
    for first in firsts:
        order = sorted(processors, key=lambda it: (level_order(first).index(it.own.level), it.own.slot))
        text += [f"    :: first == {first} ->", *grant(order, arbiter, 2)]
    return [*text, "    fi", "}"]


def bus(processors: list[Processor], arbiter: str, request: str) -> list[str]:
    """The arbiter: who holds the bus, who waits for it, and the level at which the next grant begins."""
    if not processors:
        return []
    waits = ", ".join(f"waits{it.own.slot}" for it in processors)
    return ["byte holder, first = 3;", f"bool {waits};", *request.splitlines(), *release(processors, arbiter)]


def printed(text: str, cells: list[str]) -> str:
    """The call that prints a text and bytes after it, in hexadecimal."""
    text += "".join("00" if it == ZERO else "%02x" for it in cells)
    values = "".join(f", now.{it}" for it in cells if it != ZERO)
    return f'printf("{text}; "{values});'


def reply_code(processor: Processor, number: int) -> str:
    """The code that prints the reply to a line."""
    slot, ways = processor.own.slot, processor.replies[number]
    calls = [printed(f"{slot}:{number} {word}{' ' if cells else ''}", cells) for word, cells in ways]
    if len(calls) == 1:
        return calls[0]
    cases = (f"case {place}: {call} break;" for place, call in enumerate(calls))
    return f"switch (now.s_{slot}_{number}) {{ {' '.join(cases)} }}"


def rows_code(memory: Memory, slot: int, size: int) -> list[str]:
    """The code that prints the rows of a board that are not all zeros."""
    found = []
    for first in sorted({at // ROW * ROW for at in memory.places.get(slot, {})}):
        cells = [memory.cell(slot, at) for at in range(first, min(first + ROW, size))]
        some = " | ".join(f"now.{it}" for it in cells if it != ZERO)
        found.append(f"if ({some}) {printed(f'mem {slot} {first:08x} ', cells)}")
    return found


def outcome(config: Configuration, memory: Memory, processors: list[Processor]) -> list[str]:
    """The process that prints the outcome once each slot has ended."""
    codes = ['printf("outcome: ");', *(reply_code(it, number) for it in processors for number in it.replies)]
    steps = code_steps([*codes, *memory_codes(config, memory)])
    count = sum(it.has_turns for it in processors)
    return ["", "active proctype outcome() {", "    d_step {", f"        ended == {count} ->", *steps, "    }", "}"]


def memory_codes(config: Configuration, memory: Memory) -> list[str]:
    """The codes that print the memories of all boards, and end the line."""
    return [*(code for board in config.boards for code in rows_code(memory, board.slot, board.size)), 'printf("\\n");']


def code_steps(codes: list[str]) -> list[str]:
    """The statements that perform codes."""
    return [f"        c_code {{ {code} }};" for code in codes]


def accesses_of(plans: list[list[Plan]]) -> list[Access]:
    """All accesses of all lines."""
    return [access for script in plans for it in script if it.transfer for access in it.transfer.accesses]


def parts_of(config: Configuration, kind: type[Processor]) -> tuple[Memory, list[Processor], list[str]]:
    """The memory of a model, the processes of its slots, and the declarations of what both keep."""
    plans = [[plan(config, board, line) for line in script] for board, script in zip(config.boards, config.scripts)]
    memory = Memory(accesses_of(plans), config.mailboxes)
    processors = [kind(config, memory, board, script) for board, script in zip(config.boards, plans)]
    size = sum(len(it) for it in memory.places.values())
    size += sum(len(cells) for it in processors for reply in it.replies.values() for _, cells in reply)
    require(size <= MOST_BYTES, f"a state would have {size} bytes of memory and replies, and a model has at most {MOST_BYTES}")
    declared = [f"byte m{slot}[{len(places)}];" for slot, places in memory.places.items()]
    return memory, processors, declared + [it for processor in processors for it in processor.globals]


def model_of(config: Configuration) -> str:
    """The model of a configuration, whose complete runs print its outcomes."""
    memory, processors, declared = parts_of(config, Processor)
    text = [HEAD, *declared, "byte ended;", *bus([it for it in processors if it.on_bus], config.arbiter, REQUEST)]
    for it in processors:
        text += it.process() if it.has_turns else []
    return "\n".join([*text, *outcome(config, memory, processors), ""])
