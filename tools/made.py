"""The script and the file that a seed makes. tools/made --help says how."""
import os
import struct

import studies
from studies import Failed

ABOUT = """Writes the script and the file of `bin/overlay-run --make SEED` into a folder, as `script` and `gen.elf`: run there, over the same frames
and with the same quantum, the script gives the same report. So the other tools can be used on it."""
MORE = """Status: 0 where both were written or are there already, 1 where they couldn't be, 2 where the words of the call aren't these."""

# the draws of a seed: the high 31 bits of a linear congruential generator
FACTOR, SUMMAND = 6364136223846793005, 1442695040888963407
ROUNDS, PROCESSES, CHECKPOINTS = 40, 6, 4
KINDS = ("fork {p}", "speculate {p}", "commit {p}", "discard {p}", "promote {p} all", "checkpoint {p} {name}", "restore {p} {name}", "set {p} x5 {value}")

# The program: without end x5 is mixed by shifts and exclusive or, and stored into one of 64 pages from 0x20000 on.
WORDS = (0x00020337, 0x000403b7, 0xff838393, 0x00d29413, 0x0082c2b3, 0x0072d413, 0x0082c2b3, 0x01129413, 0x0082c2b3, 0x0072f4b3, 0x006484b3, 0x0054b023,
         0xfddff06f)
HEADER_BYTES, PROGRAM_HEADER_BYTES = 64, 56
CODE, DATA, DATA_BYTES = 0x100b0, 0x20000, 0x40000


def words():
    words = studies.parser("made", ABOUT, MORE)
    words.add_argument("seed", metavar="SEED", type=studies.number_of(0, 2**64 - 1))
    words.add_argument("folder", metavar="FOLDER", help="it is made where it isn't there")
    return words


def draws(seed):
    state = seed
    while True:
        state = (state * FACTOR + SUMMAND) % 2**64
        yield state >> 33


def script_of(seed):
    drawn = draws(seed)
    lines = ["load gen.elf", f"set 1 x5 {next(drawn) + 1}", "run 100000"]
    for _ in range(ROUNDS):
        kind, process, value = next(drawn), next(drawn), next(drawn)
        lines.append(KINDS[kind % len(KINDS)].format(p=1 + process % PROCESSES, name=f"c{value % CHECKPOINTS}", value=value + 1))
        lines.append("run 20000")
    return "".join(line + "\n" for line in lines + ["compact", "list", "stats"]).encode()


def program_header(flags, offset, address, in_file, in_memory):
    return struct.pack("<IIQQQQQQ", 1, flags, offset, address, address, in_file, in_memory, 4096)


def file_of():
    """The file, which is one for all seeds."""
    code = struct.pack(f"<{len(WORDS)}I", *WORDS)
    begin = HEADER_BYTES + 2 * PROGRAM_HEADER_BYTES
    header = bytes([0x7f, 0x45, 0x4c, 0x46, 2, 1, 1]).ljust(16, b"\0") + struct.pack("<HHIQQQIHHHHHH", 2, 243, 1, CODE, HEADER_BYTES, 0, 0, HEADER_BYTES,
                                                                                        PROGRAM_HEADER_BYTES, 2, 0, 0, 0)
    return header + program_header(5, begin, CODE, len(code), len(code)) + program_header(6, 0, DATA, 0, DATA_BYTES) + code


def write(path, data):
    if os.path.exists(path):
        with open(path, "rb") as file:
            if file.read() != data:
                raise Failed(f"{path} is there already, with other bytes")
    else:
        with open(path, "wb") as file:
            file.write(data)


def main():
    call = words().parse_args()
    os.makedirs(call.folder, exist_ok=True)
    write(os.path.join(call.folder, "script"), script_of(call.seed))
    write(os.path.join(call.folder, "gen.elf"), file_of())
    print(f"{os.path.join(call.folder, 'script')}, {os.path.join(call.folder, 'gen.elf')}")
    return 0


if __name__ == "__main__":
    studies.call("made", main)
