"""Letters as bytes: made by hand, damaged, and changed but signed again."""

import hashlib

HIGHEST = 4294967295


def number(value, size):
    return value.to_bytes(size, "big")


def mark(stamp, hut):
    return number(stamp, 4) + number(hut, 1)


def stay(hut, night, nights, beds):
    return number(hut, 1) + number(night, 2) + number(nights, 1) + number(beds, 1)


def several(choices):
    return number(len(choices), 1) + b"".join(stay(*choice) for choice in choices)


def book(stamp, hut, guest, choices=()):
    return mark(stamp, hut) + b"\1" + number(guest, 4) + several(choices)


def cancel(stamp, hut, named):
    return mark(stamp, hut) + b"\2" + mark(*named)


def change(stamp, hut, named, choices=()):
    return mark(stamp, hut) + b"\3" + mark(*named) + several(choices)


def beds(stamp, hut, asked):
    return mark(stamp, hut) + b"\4" + stay(*asked)


def signed(content):
    return content + hashlib.sha256(content).digest()


def letter(committed=(), place=0, tentative=(), counts=(None, None), behind=b""):
    """`tentative` has pairs of an entry and its vector; `counts` may lie."""
    many, more = counts
    content = b"\x42" + number(len(committed) if many is None else many, 2) + number(place, 4)
    content += b"".join(committed) + number(len(tentative) if more is None else more, 2)
    for entry, vector in tentative:
        content += entry + b"".join(number(stamp, 4) for stamp in vector)
    return signed(content + behind)


def changed(rng, content):
    """Some bytes other than they were, fewer or more."""
    content = bytearray(content)
    for _ in range(rng.choice((1, 1, 1, 2, 5))):
        at = rng.randrange(len(content) + 1)
        way = rng.randrange(5)
        if way == 0:
            content[at:at] = rng.randbytes(rng.choice((1, 1, 5, 16, 64)))
        elif way == 1:
            del content[at:at + rng.choice((1, 1, 5, 16, 64))]
        elif way == 2:
            del content[at:]
        elif at < len(content):
            content[at] = rng.choice((0, 1, 2, 5, 15, 16, 255, content[at] ^ (1 << rng.randrange(8))))
    return bytes(content)


def damaged(rng, known):
    return changed(rng, known) or b"\0"


def tampered(rng, known):
    """A letter that was written by a hut, with other content and the right digest."""
    content = known[:-32]
    way = rng.randrange(6)
    if way == 0 and len(content) >= 7:
        place = rng.choice((rng.randrange(8), rng.randrange(8), HIGHEST))
        return signed(content[:3] + number(place, 4) + content[7:])
    if way == 1 and len(content) >= 64 + 9:
        vector = [rng.choice((0, 0, 0, 1, 2, rng.randrange(12), HIGHEST)) for _ in range(16)]
        return signed(content[:-64] + b"".join(number(stamp, 4) for stamp in vector))
    if way == 2:
        return signed(content[:1] + number(rng.choice((0, 1, 2, 3, 1024, 1025, 65535)), 2) + content[3:])
    return signed(changed(rng, content))
