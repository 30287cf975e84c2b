"""The model of a configuration whose turns are given, as those of `vme step`: each run prints its report, without counts."""

from promela_model.configuration import Configuration
from promela_model.memory import Memory
from promela_model.model import STATE, bus, code_steps, memory_codes, parts_of, reply_code
from promela_model.processor import Processor
from promela_model.refused import require
from promela_model.tables import first_after

# The most turns of all schedules of a model.
MOST_TURNS = 10_000
HEAD = f"""/* A configuration with its turns as a model for SPIN, by scripts/promela. Its run prints the report, as a line:

       spin -a MODEL; cc -DSAFETY -DNOREDUCE -DVECTORSZ={STATE} -o pan pan.c
       ./pan -n -E -m1000000 | sed -n 's/^report 0: //p'

   The clock gives a slot a turn, and a step of the slot's process ends the turn. */"""
REQUEST = """
/* a request on a free bus is granted; else the slot waits until it finds that it has the bus, and the clock ends its turns */
inline request(slot, waits, after, replied, lines) {
    if
    :: d_step { turn == slot && holder == 0 -> holder = slot; first = after; replied = lines; turn = 0 }
    :: d_step { turn == slot && holder != 0 -> waits = 1; replied = lines; turn = 0 };
       d_step { turn == slot && holder == slot -> turn = 0 }
    fi
}
"""


class Scheduled(Processor):
    """The process of a slot that has its turns from the clock, and counts the lines that have their reply."""

    def step(self, statements: list[str], guard: str = "") -> str:
        """One turn."""
        condition = f"turn == {self.own.slot}" + (f" && {guard}" if guard else "")
        return f"d_step {{ {'; '.join([f'{condition} -> turn = 0', *statements])} }}"

    def ends(self) -> list[str]:
        """With the last step of a line it has its reply, as have those before it."""
        return [f"replied{self.own.slot} = {self.place + 1}"]

    def request(self) -> str:
        """The turns from the request of the bus to its grant; with the first one the refused lines before have their reply."""
        self.on_bus = True
        slot, after = self.own.slot, first_after(self.config.arbiter, self.own.level)
        return f"request({slot}, waits{slot}, {after}, replied{slot}, {self.place});"

    def last(self) -> list[str]:
        """The turns after the last line with a call: the refused lines at the end have their reply."""
        return ["    do", f"    :: {self.step([f'replied{self.own.slot} = {len(self.replies)}'])}", "    od"]


def turns_of(config: Configuration) -> list[int]:
    """The slots of the turns of a file: vme_stepper.file_turns."""
    rounds = [board.slot for board in config.boards]
    count = sum(turns for _, turns in config.schedule) + config.rounds * len(rounds)
    require(count <= MOST_TURNS, f"the file has {count} turns, and a model has at most {MOST_TURNS}")
    return [slot for slot, turns in config.schedule for _ in range(turns)] + rounds * config.rounds


def report(config: Configuration, memory: Memory, processors: list[Processor]) -> list[str]:
    """The codes that print the report of a schedule."""
    codes = ['printf("report %d: ", now.which);']
    for it in processors:
        for place, number in enumerate(it.replies):
            unfinished = f'printf("{it.own.slot}:{number} unfinished; ");'
            codes.append(f"if (now.replied{it.own.slot} > {place}) {{ {reply_code(it, number)} }} else {unfinished}")
    return code_steps([*codes, *memory_codes(config, memory)])


def array(schedules: list[list[int]], length: int) -> str:
    """The slots of the turns of each schedule, and the turns of no slot after its last one, as an array of C."""
    rows = ", ".join(f"{{{', '.join(map(str, it + [0] * (length + 1 - len(it))))}}}" for it in schedules)
    return f"c_decl {{ static const unsigned char turns[{len(schedules)}][{length + 1}] = {{{rows}}}; }};"


def clock(count: int, length: int, on_bus: list[Processor], printed: list[str]) -> list[str]:
    """The process that gives each turn of one of the schedules, ends those in which a slot waits, and prints at the end."""
    choice = ["    do", f"    :: which < {count - 1} -> which++", "    :: break", "    od;"] if count > 1 else []
    gives = f"turn == 0 && at < {length} -> c_code {{ now.turn = turns[now.which][now.at]; }}; at++"
    polls = [f"    :: d_step {{ turn == {it.own.slot} && waits{it.own.slot} -> turn = 0 }}" for it in on_bus]
    ended = [f"    :: d_step {{ turn == 0 && at == {length} -> at++;", *printed, "    }"]
    return ["", "active proctype clock() {", *choice, "    do", f"    :: d_step {{ {gives} }}", *polls, *ended, "    od", "}"]


def scheduled_model(config: Configuration, schedules: list[list[int]]) -> str:
    """The model of a configuration whose turns are those of one of some schedules."""
    require(sum(map(len, schedules)) <= MOST_TURNS, f"there are more than {MOST_TURNS} turns")
    memory, processors, declared = parts_of(config, Scheduled)
    length, on_bus = max(map(len, schedules)), [it for it in processors if it.on_bus]
    declared += [*(f"short replied{it.own.slot};" for it in processors), array(schedules, length), "short which, at;", "byte turn;"]
    text = [HEAD, *declared, *bus(on_bus, config.arbiter, REQUEST)]
    for it in processors:
        text += it.process()
    return "\n".join([*text, *clock(len(schedules), length, on_bus, report(config, memory, processors)), ""])
