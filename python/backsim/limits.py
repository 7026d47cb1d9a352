"""The limits of files, scripts and options (docs/use/FORMATS.md): what the program takes, each said here alone."""
from __future__ import annotations

# bytes: of a file of a circuit, a script, a proof, a line and a name
FILE_LIMIT = 64 * 1024 * 1024
SCRIPT_LIMIT = 16 * 1024 * 1024
PROOF_LIMIT = 256 * 1024 * 1024
LINE_LIMIT = 4096
NAME_LIMIT = 255
# a netlist
MOST_PINS_OF_A_GATE = 64
MOST_NAMES = 1_048_576
MOST_PINS = 4_194_304
# horizons, delays, and the times of settings and clocks; a cell ends at most two units after twice this
MOST_TIME = 1_000_000
MOST_END = 2 * MOST_TIME + 2
# a script: a time that a line asks for, the budget of a question, and the items, budgets and lengths of a batch
MOST_ASKED_TIME = 4_294_967_294
MOST_BUDGET = 500_000
USUAL_BUDGET = 50_000
MOST_ITEMS = 64
MOST_BUDGETS = 1_000_000
MOST_LENGTHS = 4_000_000
# a proof's numbers
MOST_NUMBER = 4_294_967_295
# the options of a session: workers, shards, and the cells of a shard
MOST_WORKERS = 64
MOST_SHARDS = 64
MOST_CELLS = 65_536
# the memo of a `stuck` line (a section `held K` of a journal), which is one shard
HELD_CELLS = 65_536
