"""Random scripts: few huts and nights, so that entries stand in each other's way."""

from comparing import forging
from comparing.playing import play

HIGHEST = forging.HIGHEST
WRONG_STAYS = ((16, 9, 1, 5), (255, 0, 1, 1), (5, 366, 1, 5), (5, 365, 2, 5), (5, 365, 1, 1), (5, 353, 14, 5),
               (5, 352, 14, 5), (5, 65535, 14, 1), (5, 9, 0, 5), (5, 9, 15, 5), (5, 9, 1, 0), (5, 9, 1, 21), (5, 9, 1, 255))
NOISE = ("", "   ", "# walk 0 1", "  # no", "\tink", "ink\r", "INK", "sleep", "caf\xe9", "huts 1", "at 16", "at 0 #",
         "  show   5   009  ", "show 16 9", "show 5 366", "show 0 365", "got 0 1", "got 1 16", "got 4294967296 1",
         "take", "take 4", "take 4G", "take 4A", "take 42", "take 00", "take 42 42", "again 0 1", "again 999999999 1",
         "walk 16 17", "lose 99 1", "stop 99 5", "stop 0 9999999999", "cancel 0 1", "cancel 1 16", "book 4294967296",
         "book 4294967295", "book 99999999999", "book +1", "beds 5 9 1 256", "beds 5 9 1 255", "beds 5 9 1 0",
         "help", "help 1", "book 1" + " 5 9 1 1" * 5, "change 1 1" + " 5 9 1 1" * 5, "serve" + " 0" * 17, "letter 0" + " 0" * 17)
WORDS = ([], ["0"], ["007"], ["16"], ["4294967296"], ["12345678901"], ["-1"], ["x"], ["5", "5"])


class Scene:
    """What a script is made from: its huts, and what came of its lines so far."""

    def __init__(self, rng, program, length):
        self.rng, self.program, self.length = rng, program, length
        self.huts = rng.sample(range(1, 16), rng.randrange(4))
        if rng.random() < 0.9 or not self.huts:
            self.huts.append(0)
        rng.shuffle(self.huts)
        self.places = rng.sample(range(16), rng.choice((1, 1, 2)))
        self.first = rng.choice((0, 9, 100, 360))
        self.opening = rng.choices((self.nothing, self.high_stamps, self.full_letter, self.full_log), (898, 60, 40, 2))[0]
        self.letters, self.vectors = [forging.letter()], [[0] * 16]
        self.learn([])

    def script(self):
        lines = []
        if self.rng.random() < 0.05:
            lines += [self.rng.choice(("ink", "huts", "huts 16", "huts 1 1", "huts 1 2 3 4 5", "show", "walk 1 2"))]
        lines.append("huts " + " ".join(map(str, self.huts)))
        lines += self.opening()
        for _ in range(8):
            for _ in range(self.length // 8):
                lines += self.some_lines()
            self.learn(play(self.program, lines))
        for hut in self.huts:
            lines += [f"at {hut}", "have", "line", "show"]
            lines += [f"got {stamp} {maker}" for stamp, maker in sorted(set(self.marks[-400:]))]
        return lines

    def learn(self, printed):
        self.walked, self.letters, self.marks = 0, self.letters[:1], [(1, self.huts[0])]
        for words in filter(None, map(str.split, printed)):
            if words[0] == "letter" and len(words) == 2:
                self.letters.append(bytes.fromhex(words[1]))
            elif words[0] == "letter" and words[2] == "from":
                self.walked += 1
            elif words[0] == "made" or words[:2] == ["taken", "in"]:
                at = 1 if words[0] == "made" else 3
                self.marks.append((int(words[at]), int(words[at + 1])))
            elif words[0] in ("have", "served") and len(words) > 16:
                self.vectors.append([int(word) for word in words[-16:]])

    def nothing(self):
        return []

    def taken(self, entries, place=0, in_ink=None):
        """A letter of these entries comes to some hut, all in ink or all in pencil."""
        in_ink = self.rng.random() < 0.5 if in_ink is None else in_ink
        if in_ink:
            return "take " + forging.letter(entries, place).hex()
        return "take " + forging.letter(tentative=[(entry, [0] * 16) for entry in entries]).hex()

    def high_stamps(self):
        """One or two huts have stamps that are near the highest."""
        rng = self.rng
        lines = []
        for hut in rng.sample(self.huts, min(2, len(self.huts))):
            stamp = HIGHEST - rng.randrange(1, 12)
            lines += [f"at {hut}", self.taken([forging.book(stamp, rng.randrange(16), 7, self.stays())])]
        return lines

    def many(self, count):
        """Entries of one hut, each a booking, or of one before it."""
        rng, maker = self.rng, self.rng.randrange(16)
        entries = []
        for at in range(count):
            named = (rng.randrange(at) + 1, maker) if at else (1, maker)
            stays = [self.right_stay() for _ in range(rng.choice((1, 1, 2)))]
            ways = (forging.book(at + 1, maker, at, stays), forging.cancel(at + 1, maker, named),
                    forging.change(at + 1, maker, named, stays), forging.beds(at + 1, maker, self.right_stay(40)))
            entries.append(rng.choices(ways, (60, 15, 20, 5))[0])
        return entries

    def full_letter(self):
        """A hut has about as many entries as a letter can have."""
        return [f"at {self.rng.choice(self.huts)}", self.taken(self.many(1024 - self.rng.choice((0, 0, 1, 2, 8))))]

    def full_log(self):
        """A hut has about as many entries as a log can have."""
        entries = self.many(65536 - self.rng.choice((0, 1, 2, 3, 5, 8)))
        in_ink = self.rng.random() < 0.7
        letters = [self.taken(entries[at:at + 1024], at, in_ink) for at in range(0, len(entries), 1024)]
        return [f"at {self.rng.choice(self.huts)}"] + letters

    def hut(self):
        return self.rng.choice(self.huts) if self.rng.random() < 0.98 else self.rng.randrange(18)

    def mark(self):
        if self.rng.random() < 0.7:
            return self.rng.choice(self.marks[-12:])
        return self.rng.randrange(1, 14), self.hut()

    def stay(self, most=20):
        return self.rng.choice(WRONG_STAYS) if self.rng.random() < 0.02 else self.right_stay(most)

    def right_stay(self, most=20):
        night = self.first + self.rng.randrange(4)
        beds = self.rng.choice((most, 20, 20, 15, 10, 10, 5, 5, 1))
        return self.rng.choice(self.places), night, self.rng.choice((1, 1, 2, 3, min(14, 366 - night))), beds

    def stays(self):
        return [self.stay() for _ in range(self.rng.choice((0, 1, 1, 1, 2, 2, 3, 4)))]

    def vector(self):
        if self.rng.random() < 0.6:
            vector = list(self.rng.choice(self.vectors[-6:]))
        else:
            vector = [0] * 16
        for _ in range(self.rng.choice((0, 0, 1, 2))):
            vector[self.rng.choice(self.huts)] = self.rng.choice((0, 1, 2, 3, 5, 8, 13, HIGHEST))
        return vector

    def entry(self):
        """An entry as bytes, of any hut, rarely out of range."""
        rng = self.rng
        stamp, hut = rng.choice((self.mark(), (rng.randrange(1, 20), rng.randrange(16))))
        if rng.random() < 0.04:
            stamp = rng.choice((0, HIGHEST, HIGHEST - 1))
        if rng.random() < 0.02:
            hut = rng.choice((16, 255))
        named = self.mark() if rng.random() < 0.97 else rng.choice(((0, 1), (1, 16), (HIGHEST, 15)))
        kind = rng.randrange(4)
        if kind == 0:
            made = forging.book(stamp, hut, rng.choice((0, 7, HIGHEST)), self.stays())
        elif kind == 1:
            made = forging.cancel(stamp, hut, named)
        elif kind == 2:
            made = forging.change(stamp, hut, named, self.stays() + [self.stay()] * rng.choice((0, 0, 0, 0, 5)))
        else:
            made = forging.beds(stamp, hut, self.stay(255))
        if rng.random() < 0.03:
            made = made[:5] + bytes([rng.choice((0, 5, 66, 255))]) + made[6:]
        return made

    def forged(self):
        """A letter that no hut wrote, with a right digest."""
        rng = self.rng
        committed = [self.entry() for _ in range(rng.choice((0, 0, 1, 2, 3)))]
        tentative = [(self.entry(), self.vector()) for _ in range(rng.choice((0, 0, 1, 2, 4)))]
        counts = [None, None]
        if rng.random() < 0.1:
            counts[rng.randrange(2)] = rng.choice((0, 1, 2, 3, 4, 5, 1024, 1025, 65535))
        place = rng.choice((0, 0, 0, 1, 2, 3, 5, 8, 13, HIGHEST))
        return forging.letter(committed, place, tentative, counts, rng.choice((b"",) * 30 + (b"\0",)))

    def sent(self):
        known = self.rng.choice(self.letters)
        way = self.rng.random()
        if way < 0.2:
            return known
        if way < 0.3:
            return forging.damaged(self.rng, known)
        return forging.tampered(self.rng, known) if way < 0.6 else self.forged()

    def unsynced(self):
        """Something is taken, perhaps something is asked, and the hut stops, perhaps twice."""
        rng, hut, other = self.rng, self.rng.choice(self.huts), self.hut()
        taken = (f"take {self.sent().hex()}", f"walk {other} {hut}", f"again {rng.randrange(1, self.walked + 2)} {hut}")
        asked = ("have", "show", "line", "show 0 0", "show 16 0", "show 0 366", "got 99 1", "got 0 0", "ink", "book 0",
                 "cancel 99 1", f"lose {hut} {other}", f"lose {other} {hut}", "serve" + " 99" * 16,
                 "serve" + " 4294967296" * 16, rng.choice(NOISE))
        lines = [f"at {hut}", rng.choice(taken)] + [rng.choice(asked)] * rng.randrange(2)
        lines.append(f"stop {hut} {rng.choice((0, 1, 12, 13, 17, 20, 34, rng.randrange(100)))}")
        return lines + [f"stop {hut} 0"] * rng.randrange(2) + ["have"]

    def misspelt(self):
        """A line with a word too few, too many, or other than it was."""
        words = self.some_lines()[0].split()
        at = self.rng.randrange(len(words) + 1)
        words[at:at + self.rng.randrange(2)] = self.rng.choice(WORDS)
        return [" ".join(words)]

    def some_lines(self):
        rng, huts = self.rng, self.hut
        words = lambda *parts: " ".join(str(part) for part in parts)
        flat = lambda stays: [part for stay in stays for part in stay]
        ways = (
            (6, self.unsynced),
            (12, lambda: [words("at", rng.choice(self.huts))]),
            (10, lambda: [words("book", rng.randrange(100), *flat(self.stays()))]),
            (6, lambda: [words("cancel", *self.mark())]),
            (8, lambda: [words("change", *self.mark(), *flat(self.stays()))]),
            (3, lambda: [words("beds", *self.stay(255))]),
            (3, lambda: ["ink"]),
            (4, lambda: ["at 0"] + ["ink"] * rng.randrange(1, 5)),
            (2, lambda: ["have"]),
            (4, lambda: [words("letter", rng.choice((0, 0, 1, 2, HIGHEST, HIGHEST + 1)), *self.vector())]),
            (9, lambda: ["take " + self.sent().hex()]),
            (3, lambda: [rng.choice(("show", "line"))]),
            (3, lambda: [words("show", rng.choice(self.places), self.first + rng.randrange(5))]),
            (6, lambda: [words("got", *self.mark())]),
            (4, lambda: [words("serve", *self.vector())]),
            (1, lambda: [words("serve", *self.vector()[1:], HIGHEST + 1)]),
            (14, lambda: [words("walk", huts(), huts())]),
            (3, lambda: [words("lose", huts(), huts())]),
            (6, lambda: [words("again", rng.randrange(1, self.walked + 3), huts())]),
            (2, lambda: [words("cut", rng.randrange(1, self.walked + 2), huts(), rng.choice((0, 40, 41, 99, 999)))]),
            (3, lambda: [words("stop", huts(), rng.choice((0, 1, 12, 17, 9999999999, rng.randrange(150))))]),
            (2, lambda: [rng.choice(NOISE)]),
            (3, self.misspelt),
        )
        return rng.choices([way for _, way in ways], [weight for weight, _ in ways])[0]()
