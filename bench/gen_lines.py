"""The generator's lines as docs/MACHINE.md says them, of a seed and a count: bench/gen_lines.py SEED COUNT. It shares nothing with the crates."""

import sys


def lines(seed, count):
    state = seed

    def draw(bound):
        nonlocal state
        state = (state * 6364136223846793005 + 1442695040888963407) % 2**64
        return (state >> 33) % bound

    def sub():
        drawn = draw(16)
        return 5 if drawn < 8 else 248 + drawn

    def ino():
        return 257 + draw(8)

    def position():
        return 4096 * draw(64)

    def length():
        return 4096 * (1 + draw(16))

    yield from ("qgroup create 1/1", "qgroup create 1/2", "qgroup create 2/1", "assign 1/1 2/1", "assign 1/2 2/1")
    for _ in range(count):
        kind = draw(16)
        if kind < 7:
            yield f"write {sub()} {ino()} {position()} {length()}"
        elif kind < 9:
            yield f"clone {sub()} {ino()} {position()} {length()} {sub()} {ino()} {position()}"
        elif kind == 9:
            yield f"truncate {sub()} {ino()} {position()}"
        elif kind == 10:
            yield f"unlink {sub()} {ino()}"
        elif kind == 11:
            yield f"snap {sub()}"
        elif kind == 12:
            yield f"delete {256 + draw(256)}"
        elif kind == 13:
            yield f"assign 0/{sub()} 1/{1 + draw(2)}"
        elif kind == 14:
            yield f"limit rfer 0/{sub()} {65536 * (1 + draw(256))}"
        else:
            yield "commit"


if __name__ == "__main__":
    for line in lines(int(sys.argv[1]), int(sys.argv[2])):
        print(line)
