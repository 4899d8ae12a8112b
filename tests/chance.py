"""What the generators of cases share: bytes and names by chance, and their lines for people."""

import random
import sys
from typing import Callable, List

LABEL_BYTES = b"abcdefghijklmnopqrstuvwxyzABCDEFGHIJKLMNOPQRSTUVWXYZ0123456789-_"


def pick_bytes(rng: random.Random, alphabet: bytes, count: int) -> bytes:
    return bytes(rng.choices(alphabet, k=count))


def label_lengths(rng: random.Random) -> List[int]:
    way = rng.randrange(12)
    if way == 0:  # 255 bytes in wire form: 254 for labels with their lengths
        lengths, room = [], 254
        while room > 0:
            length = min(63, room - 1) if rng.random() < 0.5 else rng.randint(1, min(63, room - 1))
            if room - length - 1 == 1:  # no label fits into one byte
                length += 1 if length < 63 else -1
            lengths.append(length)
            room -= length + 1
        rng.shuffle(lengths)
        return lengths
    if way == 1:
        return [1] * rng.choice((1, 60, 126, 127))
    if way == 2:
        return rng.choice(([63], [63, 1], [1, 63], [62, 63], [63, 63, 63], [63, 63, 63, 61], [63, 63, 63, 60]))
    return [rng.randint(1, 9) for _ in range(rng.randint(1, 4))]


def print_lines(usage: str, batch: int, lines_of: Callable[[int, int, int], List[str]]) -> None:
    """The lines of SEED and COUNT on the command line, which come in batches."""
    if len(sys.argv) != 3:
        raise SystemExit(usage)
    seed, count = int(sys.argv[1]), int(sys.argv[2])
    for number in range(0, (count + batch - 1) // batch):
        for line in lines_of(seed, number, min(batch, count - number * batch)):
            print(line)
