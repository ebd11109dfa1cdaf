"""Scripts that chance would not find: every byte of a letter, what each command syncs, and the limits."""

from comparing.forging import HIGHEST, beds, book, cancel, change, letter, number, signed

NONE = [0] * 16
ENDING = ["have", "show", "stop 1 0", "have", "show", "line"]


def take(*committed, **more):
    return "take " + letter(committed, **more).hex()


def vector(hut, stamp):
    return [stamp if at == hut else 0 for at in range(16)]


def every_byte():
    """A letter with each of its bytes changed, and cut behind each, with its old digest and a new one."""
    stay = (5, 9, 2, 3)
    committed = [book(1, 2, 7, [stay, stay]), cancel(2, 3, (1, 2))]
    tentative = [(change(3, 2, (1, 2), [stay]), vector(3, 2)), (beds(4, 3, stay), vector(2, 3))]
    right = letter(committed, 0, tentative)
    content, letters = right[:-32], [right]
    for at in range(len(content)):
        letters += [right[:at], signed(content[:at]), signed(content[:at] + content[at + 1:])]
        for value in (0, 1, 2, 5, 15, 16, 21, 255):
            changed = content[:at] + bytes([value]) + content[at + 1:]
            letters += [signed(changed), changed + right[-32:]]
    letters += [right + b"\0", signed(content + b"\0"), right[:-1], right[1:], right + right]
    return ["huts 1"] + [line for each in letters for line in ("take " + each.hex(), "stop 1 0")]


def out_of_range():
    """Entries with a number out of range, or an unknown kind, cut behind each of their bytes, with a right digest."""
    stay, far, none = (5, 9, 2, 3), (16, 9, 2, 3), (5, 9, 0, 3)
    wrong = [book(0, 2, 7, [stay]), book(1, 16, 7, [stay, stay]), cancel(9, 16, (1, 2)), beds(9, 16, stay)]
    wrong += [book(9, 2, 7, [far, stay]), book(9, 2, 7, [stay, stay, stay, (5, 9, 2, 21)]), book(9, 2, 7, [(5, 9, 2, 0)])]
    wrong += [cancel(9, 2, (0, 2)), cancel(9, 2, (1, 16)), change(9, 2, (1, 16), [stay]), change(9, 2, (1, 2), [none, stay])]
    wrong += [beds(9, 2, far), beds(9, 2, none), beds(9, 2, (5, 365, 2, 9)), book(9, 2, 7)[:5] + b"\5" + bytes(9)]
    wrong += [book(9, 16, 7)[:10] + b"\5" + bytes(9), change(9, 2, (1, 16))[:11] + b"\5" + bytes(9)]
    right = cancel(2, 3, (1, 2))
    lines = ["huts 1", "take " + signed(bytes.fromhex("42 0000 00000000 0001 00000001 10")).hex()]
    for entry in wrong:
        for end in range(len(entry) + 1):
            part = entry[:end]
            lines += ["take " + signed(b"\x42" + content).hex() for content in (
                number(2, 2) + number(0, 4) + right + part,
                number(1, 2) + number(0, 4) + right + number(1, 2) + part,
                number(0, 2) + number(0, 4) + number(2, 2) + right + bytes(64) + part,
            )]
        lines += [take(right, entry, right), take(entry, tentative=[(right, NONE)]), take(right, tentative=[(entry, NONE), (right, NONE)])]
        lines += ["take " + letter([right], counts=(None, 1), behind=entry + bytes(63)).hex(), "stop 1 0"]
    return lines + ENDING


def every_stop():
    """Four entries are taken, and the hut crashes behind each of their bytes."""
    lines = ["huts 1"]
    for kept in range(80):
        first = 4 * kept + 1
        entries = [book(first, 2, 7, [(5, kept, 1, 9)]), change(first + 1, 2, (first, 2), [(6, kept, 1, 9)] * 2)]
        entries += [cancel(first + 2, 2, (first + 1, 2)), beds(first + 3, 2, (5, kept, 1, 30))]
        lines += [take(tentative=[(entry, NONE) for entry in entries]), f"stop 1 {kept}", "stop 1 0"]
    return lines + ENDING


def syncs(hut):
    """An entry is taken, a command comes, the hut crashes: the entry is there just if the command synced."""
    zeros, other = " 0" * 16, 1 - hut
    asked = ["#", "sleep", "huts 1", "ink", "have", "have 1", "book 0", "book 0 16 1 1 1", "cancel 99 9", "cancel 0 1"]
    asked += ["beds 5 9 1 1", "beds 5 9 1 256", "show", "show 0 0", "show 16 0", "show 0 366", "show 1", "line"]
    asked += ["got S 9", "got 0 1", "got 99 9", "got 1", "serve" + zeros, "serve" + " 99" * 16]
    asked += ["serve" + " 4294967296" * 16, "serve 1", "letter 0" + zeros, "letter 4294967296" + zeros, "letter 0"]
    asked += ["take 42", "take 4", take(), f"at {hut}", "at 9"]
    ways = ((hut, other), (other, hut), (hut, hut), (hut, 9), (9, hut))
    asked += [f"{word} {one} {two}" for word in ("walk", "lose") for one, two in ways]
    asked += [f"again 1 {hut}", f"again 1 {other}", f"again 99 {hut}", f"cut 1 {hut} 5"]
    asked += [f"stop {other} 0", f"stop {hut} 99"]
    lines = ["huts 0 1", f"at {hut}"]
    for line in asked:
        for stamp in (2 * len(lines), 2 * len(lines) + 1):
            lines += [take(tentative=[(book(stamp, 9, 7), NONE)]), line.replace("S", str(stamp))]
            lines += [f"stop {hut} 0", "have", "ink"]
    return lines + ["line"]


def full_letters():
    """1,024 entries to hand on, then 1,025, in pencil and in ink."""
    lines = ["huts 1 0 2"]
    for at in range(1024):
        stay = f"{at % 3} {at % 50} 2 5"
        lines.append((f"book {at} {stay} 4 9 1 1", f"change {at or 1} 1 {stay}", f"cancel {at // 2 or 1} 1")[at % 7 % 3])
    lines += ["lose 1 2", "walk 1 0", "at 0"] + ["ink"] * 600 + ["at 1", "book 7 5 9 1 1"]
    lines += ["walk 1 2", "stop 2 9000", "walk 1 2", "walk 1 2", "walk 0 2", "walk 0 1", "walk 2 0", "at 0"] + ["ink"] * 500
    lines += ["walk 0 2", "walk 0 2", "again 1 2", "letter 0" + " 0" * 16, "cut 2 2 50000", "at 2"]
    return lines + ENDING


def counts():
    """Letters that have, or say that they have, about 1,024 entries."""
    lines = ["huts 1"]
    ink = lambda many, hut=2: [book(at + 1, hut, at, [(5, at % 300, 1, 1)]) for at in range(many)]
    longest = [(at, 300 + at, 14, 20) for at in range(4)]
    pencil = lambda many: [(change(at + 1, 3, (at or 1, 3), longest), NONE) for at in range(many)]
    for committed, tentative in ((1025, 0), (0, 1025), (1024, 1), (1000, 25), (1, 1024), (0, 1024), (1000, 24), (1024, 0)):
        lines += [take(*ink(committed), tentative=pencil(tentative)), "stop 1 5000", "have"]
    for lie in ((1025, None), (None, 1025), (65535, None), (None, 65535), (1024, None), (1, 1024)):
        lines.append(take(*ink(1, 4), counts=lie))
    wrong = book(9, 16, 0)
    lines += [take(*ink(1024)[:-1], wrong), take(wrong, *ink(1023)), take(*ink(1023), wrong, tentative=pencil(1))]
    lines += [take(*ink(500), tentative=[(wrong, NONE)] + pencil(523))]
    lines += [take(*ink(many, hut), place=HIGHEST) for many, hut in ((1024, 2), (2, 5))]
    return lines + ENDING


def early_entry():
    """What stands before 2,000 others comes last, again and again."""
    lines = ["huts 0 1"] + [f"book {at} {at % 16} {at % 360} 3 9 {at % 5} {at % 360} 3 9" for at in range(2000)]
    lines += ["walk 0 1", "walk 0 1", "at 1"]
    for at in range(20, 0, -1):
        lines += [take(tentative=[(book(at, 9, 7, [(at % 16, at * 7, 14, 20)]), NONE)]), "show"]
    lines += [take(beds(30, 9, (at, at * 7, 14, 3)), place=at) for at in range(2)] + ["show"]
    return lines + ["at 0"] + ["ink"] * 3 + ["walk 0 1", "at 1"] + ENDING


def highest_stamps():
    """Stamps up to 4,294,967,294 are used, and no higher one."""
    slip = lambda stamp: "serve" + "".join(f" {each}" for each in vector(3, stamp))
    last = HIGHEST - 1
    lines = ["huts 1 0", "book 7 5 9 1 20", take(tentative=[(book(HIGHEST, 3, 1), NONE)]), take(book(HIGHEST, 3, 1))]
    lines += [take(tentative=[(book(last - 1, 3, 1, [(5, 9, 1, 1)]), vector(3, stamp))]) for stamp in (HIGHEST, last, 1, 0)]
    lines += [slip(stamp) for stamp in (last - 2, last - 1, last, HIGHEST)]
    lines += ["book 8 5 9 1 1", "book 9", "cancel 1 1", "cancel 77 7", "cancel 0 7"]
    lines += [take(tentative=[(cancel(last, 3, (HIGHEST, 15)), vector(3, last - 1))]), slip(last)]
    lines += ["letter 0" + f" {last - 1}" * 16, take(change(last, 2, (1, 1), [(5, 9, 1, 1)]))]
    lines += [take(change(HIGHEST, 2, (1, 1)), place=1), take(book(HIGHEST, 1, 1), place=5)]
    return lines + ["walk 1 0", "at 0", "book 1", "ink", "ink", "walk 0 1", "at 1", f"got {last} 1"] + ENDING


def full_log(tentative):
    """65,536 entries come in letters; there is room for no more, but ink for what is in pencil."""
    lines = ["huts 1 0", "book 7 5 9 1 20", "walk 1 0"]
    for first in range(0, 65535, 1024):
        many = range(first, min(first + 1024, 65535))
        booking = lambda at: book(at + 2, 2, at, [(at % 16, at % 366, 1, 3)])
        entries = [booking(at) if at % 3 else cancel(at + 2, 2, (at or 1, 2)) for at in many]
        if tentative:
            lines.append(take(tentative=[(entry, vector(2, at + 1 if at else 0)) for at, entry in zip(many, entries)]))
        else:
            lines.append(take(*entries, place=first))
        if first == 51200:
            lines += ["show", "walk 1 0"]
        if first == 64512:
            lines += ["stop 1 170000", lines[-1]] + lines[-9:]
    lines += ["have", "book 8", "cancel 1 1", "cancel 9 9", "book 8 16 1 1 1", "got 9 9", "letter 65000" + " 65000" * 16]
    lines += [take(book(1, 3, 1), place=65535), take(book(1, 3, 1), place=65536), take(tentative=[(book(1, 3, 1), NONE)])]
    lines += [take(tentative=[(book(1, 3, 1), vector(3, 1))])]
    lines += [take(book(1, 1, 9, [(6, 9, 1, 20)]), place=0 if tentative else 65535)]
    return lines + ["got 1 1", "walk 1 0", "walk 0 1", "stop 1 20", "have", "got 1 1", "line", "show"]


def special_scripts():
    yield "every byte of a letter", every_byte()
    yield "entries out of range, cut short", out_of_range()
    yield "a stop at every byte", every_stop()
    yield "what hut 0 syncs", syncs(0)
    yield "what hut 1 syncs", syncs(1)
    yield "full letters", full_letters()
    yield "counts of letters", counts()
    yield "an early entry", early_entry()
    yield "highest stamps", highest_stamps()
    yield "a full log in ink", full_log(tentative=False)
    yield "a full log in pencil", full_log(tentative=True)
