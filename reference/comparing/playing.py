"""Plays a script on a program, says where two outputs differ, and makes a script that differs smaller."""

import subprocess

SECONDS = 300


def play(program, lines):
    """The lines that the program prints. If it does not end well, the last one says so, in parentheses."""
    text = "".join(line + "\n" for line in lines)
    try:
        ended = subprocess.run([program], input=text.encode("latin-1"), capture_output=True, timeout=SECONDS)
    except subprocess.TimeoutExpired:
        return [f"(no end after {SECONDS} s)"]
    printed = ended.stdout.decode("latin-1").split("\n")
    if printed[-1]:
        printed.append("(no newline at the end)")
    elif ended.returncode != 0 or ended.stderr:
        printed[-1] = f"(status {ended.returncode}: {ended.stderr.decode('latin-1').strip()})"
    else:
        printed.pop()
    return printed


def ended_well(printed):
    return not (printed and printed[-1].startswith("("))


def first_difference(one, other):
    """The number of the first line that differs, from 1, and that line of both; or None."""
    for place in range(max(len(one), len(other))):
        a = one[place] if place < len(one) else "(no line)"
        b = other[place] if place < len(other) else "(no line)"
        if a != b:
            return place + 1, a, b
    return None


def smallest(lines, differs, plays=2000):
    """Drops lines as long as what is left still differs: ever smaller pieces, until no single line can go."""
    piece = max(1, len(lines) // 2)
    while plays > 0:
        dropped, at = False, 0
        while at < len(lines) and plays > 0:
            fewer = lines[:at] + lines[at + piece:]
            plays -= 1
            if differs(fewer):
                lines, dropped = fewer, True
            else:
                at += piece
        if piece == 1 and not dropped:
            break
        piece = max(1, piece // 2)
    return lines
