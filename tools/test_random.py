"""Random sheets for the tool's test, built from the format byte by byte: accepted, with one label, and damaged."""


def some(random, numbers):
    """A number of two bytes: mostly one of a few, so that features and labels meet."""
    return random.choice(numbers).to_bytes(2, "big")


def item(random, n, bits):
    """A record or a question of the given map."""
    out = bytearray([bits, random.randrange(n)])
    for bit in (1, 2):
        if bits & bit:
            out.append(random.randrange(n))
    if bits & 4:
        out += some(random, [1, 1, 1, 2, 2, 258, 65535]) + bytes([random.randrange(n)])
    if bits & 8:
        out += some(random, [5, 5, 6, 1280])
    if bits & 16:
        out += path(random, [1, 1, 1, 2, 2, 258, 65535])
    return bytes(out)


def path(random, features):
    """How many features a path has, and some of these."""
    count = random.choice([1, 1, 2, 2, 3, 4, 7, 8])
    return bytes([count]) + b"".join(some(random, features) for _ in range(count))


def accepted(random):
    """An accepted sheet; its header may have room for more than it needs."""
    bits = random.choice([1, 3, 5, 7, 7, 7, 7, 7])
    n = random.choice([1, 2, 3, 4, 5, 6, 7, 9, 128] if random.random() < 0.3 else [4, 5, 6, 7])
    maps = random.choice([[1, 2, 4, 8], [1, 4, 4, 4, 8], [4, 4, 5, 8], list(range(1, 16))])
    records = [item(random, n, random.choice(maps)) for _ in range(random.randrange(14) if bits & 2 else 0)]
    questions = [item(random, n, random.choice([1, 1, 2, 4, 8, 16, 16]))
                 for _ in range(random.randrange(14) if bits & 4 else 0)]
    out = bytearray([bits, n])
    if bits & 2:
        out += len(records).to_bytes(2, "big")
    if bits & 4:
        out += len(questions).to_bytes(2, "big")
    return bytes(out) + b"".join(records) + b"".join(questions)


def handed(random):
    """A sheet whose variables have one label or none, so that it goes up far and nothing clashes; it asks for paths."""
    n = random.choice([4, 6, 9])
    orderings = [bytes([1, random.randrange(n), random.randrange(n)]) for _ in range(random.randrange(n))]
    selections = [bytes([4, random.randrange(n)]) + some(random, [1, 1, 2]) + bytes([random.randrange(n)])
                  for _ in range(random.randrange(2 * n))]
    labels = [bytes([8, random.randrange(n), 0, 5]) for _ in range(random.choice([1, 1, 2]))]
    records = orderings + selections + labels
    random.shuffle(records)
    questions = [bytes([16, random.randrange(n)]) + path(random, [1, 1, 2]) for _ in range(3)]
    return bytes([7, n, 0, len(records), 0, len(questions)]) + b"".join(records + questions)


def damaged(random):
    """A sheet with one or two faults, most of them near its start; it may still be accepted."""
    out = bytearray(accepted(random))
    for _ in range(random.choice([1, 1, 2])):
        at = random.randrange(min(len(out), 6) if random.random() < 0.4 else len(out)) if out else 0
        kind = random.randrange(6)
        if kind == 0:
            del out[at:]
        elif kind == 1:
            out += bytes(random.randrange(256) for _ in range(random.randrange(1, 20)))
        elif kind == 2:
            del out[at:at + 1]
        elif kind == 3 and 16 in out[:-2]:
            out[out.rindex(16, 0, -2) + 2] = random.choice([0, 9, 255])  # how many features, where 16 is a map
        elif out:
            out[min(at, len(out) - 1)] = random.choice([0, 3, 5, 8, 16, 128, 129, 255, random.randrange(256)])
    return bytes(out)
