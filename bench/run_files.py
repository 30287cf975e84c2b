"""Files that are timed: so many boards, each with a script of its processor."""

COUNTS = [1, 2, 4, 21]
LINES = 1_000
OFFSET = 16
# The bytes of a block, which lie between two addresses that are multiples of it.
BLOCK = 256
# As many as a file may state.
ROUNDS = 1_000_000


def base(board):
    return 0x1000 * board


def configuration(count, script, size=32):
    """A file of so many boards; `script` gives that of each."""
    tables = []
    for board in range(count):
        head = f"[[board]]\nslot = {board + 1}\nbase = {base(board):#x}\nsize = {size}\n"
        tables.append(f'{head}script = """\n{script(board)}"""\n')
    return "".join(tables)


def adding_at_home(board):
    return f"lm {OFFSET:08x} 4 add 00000001\n" * LINES


def adding_over_bus(to):
    return lambda board: f"m 09 {base(to(board)) + OFFSET:08x} 4 add 00000001\n" * LINES


def forms(count):
    """The script and the sums at the end of each form: each adds on its own board by the local port, each on its own over the
    bus, and all on one over the bus."""
    each = [(board, LINES) for board in range(count)]
    return {
        "local": (adding_at_home, each),
        "own": (adding_over_bus(lambda board: board), each),
        "one": (adding_over_bus(lambda board: 0), [(0, LINES * count)]),
    }


def rows(sums):
    """The rows of memory in the report that these sums make."""
    return [f"mem {board + 1} {OFFSET:08x} {total:08x}{'00' * 12}" for board, total in sums]


def awaiting(count, reads):
    """A file of boards whose processors each read a byte of their own board so many times over the bus; it is never set."""
    script = lambda board: f"await 09 {base(board) + OFFSET:08x} 01\n"
    return f"tries = {reads}\nrounds = {ROUNDS}\n{configuration(count, script)}"


def locking(tries):
    """A file of one board whose processor takes a lock, and then tries to take it again so many times."""
    script = lambda board: f"lock 09 {OFFSET:08x}\n" * 2
    return f"tries = {tries}\nrounds = {ROUNDS}\n{configuration(1, script)}"


def reading_blocks(count):
    """A file of boards whose processors each read blocks of 256 bytes of their own board over the bus: 64 data of four bytes and
    256 of one, in turn."""
    lines = lambda at: f"br 0b {at:08x} 4 64\nbr 0b {at:08x} 1 256\n" * (LINES // 2)
    return configuration(count, lambda board: lines(base(board)), BLOCK)


def refused(count):
    """A file of boards whose processors each have lines that are refused, all of them in their one turn: no event happens."""
    return "rounds = 1\n" + configuration(count, lambda board: f"m 08 {OFFSET:08x} 4 add 00000001\n" * LINES)


def silent(count, size):
    """A file of so many boards of that size, without a line."""
    table = lambda board: f'[[board]]\nslot = {board + 1}\nbase = {size * board:#x}\nsize = {size}\nscript = """\n"""\n'
    return "".join(map(table, range(count)))
