"""An exact model of the lines of MOTChallenge detection text, and the list of calls that it answers.

    python3 tools/mot_vectors.py

Run it from the repository's root. It writes crates/mot_vectors/stdin, the calls, and crates/mot_vectors/stdout, what they
answer; and crates/motbox/stdin, a text, and crates/motbox/stdout, its records. It gives the same files on each run.

The model is document 02's words: a pattern of text for a number and for a line, and fractions. Nothing of the port is used.
A number is checked besides: the points half way to the two floats beside its f32 lie on both sides of it.
"""

import re
from fractions import Fraction

from float_vectors import SIGN, Patterns, is_zero, round_to_f32, value

# ---- the model


DIGITS = rb"[0-9]{1,6}"
NUMBER = rb"-?" + DIGITS + rb"(?:\." + DIGITS + rb")?"
LINE = re.compile(
    rb"(%s),-1,(%s),(%s),(%s),(%s),(%s),-1,-1,-1\n" % (DIGITS, NUMBER, NUMBER, NUMBER, NUMBER, NUMBER)
)


def exact(text):
    """The fraction that a number means."""
    whole, _, behind = text.lstrip(b"-").partition(b".")
    return Fraction(int(whole + behind), 10 ** len(behind))


def nearest(text):
    """The bits of the f32 of a text, or None where it is no number."""
    if not re.fullmatch(NUMBER, text):
        return None
    bits = round_to_f32(exact(text))
    assert_nearest(exact(text), bits)
    return (SIGN if text.startswith(b"-") else 0) | bits


def assert_nearest(x, bits):
    if x == 0:
        assert bits == 0
        return
    under, over = (value(bits - 1) + value(bits)) / 2, (value(bits) + value(bits + 1)) / 2
    assert under < x < over or (bits % 2 == 0 and under <= x <= over)


def refused_value(previous, frame, left, top, width, height, score):
    """Document 01's 16, 42 or 43, of the values of the record."""
    sizes = [value(b) for b in (left, top, width, height)]
    return (
        frame == 0
        or frame < previous
        or frame > previous + 1000
        or sizes[2] <= 0
        or sizes[3] <= 0
        or any(abs(s) > 65536 for s in sizes)
        or value(score) < 0
        or value(score) > 1
    )


RECORD = 25
CELLS = 64


def answer(line, previous, room):
    """Refusal, frame and all bytes after a call that is lent the first of them; each was 170."""
    cells = bytes([170]) * CELLS
    match = LINE.fullmatch(line)
    if not match:
        return 51, 0, cells
    frame, numbers = int(match[1]), [nearest(match[k]) for k in range(2, 7)]
    if refused_value(previous, frame, *numbers):
        return 52, 0, cells
    if room < RECORD:
        return 53, 0, cells
    written = b"".join(n.to_bytes(4, "little") for n in (frame, *numbers)) + bytes([1])
    return 0, frame, written + cells[RECORD:]


# ---- numbers


def spelled(x, places):
    """A fraction with this many decimals, which it has exactly."""
    scaled = x * 10**places
    assert scaled.denominator == 1
    digits = str(scaled.numerator).rjust(places + 1, "0")
    return (digits[: len(digits) - places] + ("." + digits[len(digits) - places :] if places else "")).encode()


STEP = Fraction(1, 10**6)


def midpoints(patterns):
    """Points half way between two floats: with six decimals there are some from 262144 on, where they end in 1/64 or 1/32.
    Each with the numbers beside it, and with both signs."""
    for low, high, unit in ((2**18, 2**19, Fraction(1, 64)), (2**19, 10**6, Fraction(1, 32))):
        count = (high - low) / unit / 2
        places = [0, 1, 2, 3, int(count) - 2, int(count) - 1] + [patterns.next(int(count)) for _ in range(40)]
        for place in places:
            middle = low + (2 * place + 1) * unit
            for x in (middle - STEP, middle, middle + STEP, middle - unit, middle + unit):
                if x < 10**6:
                    yield spelled(x, 6)
                    yield b"-" + spelled(x, 6)


def near_midpoints(patterns):
    """Below 262144 no number is half way: the two numbers of six decimals next to such a point, for floats of every size."""
    for field in range(127 - 20, 127 + 18):
        for _ in range(6):
            bits = field * 2**23 + patterns.next(2**23)
            middle = (value(bits) + value(bits + 1)) / 2
            low = Fraction(int(middle * 10**6), 10**6)
            yield spelled(low, 6)
            yield spelled(low + STEP, 6)


def lengths(patterns):
    """Each count of digits before and behind the point: zeros, ones, nines, zeros in front and at the end, and drawn ones."""
    for whole in range(1, 7):
        for behind in range(0, 7):
            for fill in ("0", "1", "9"):
                yield (fill * whole + ("." + fill * behind if behind else "")).encode()
                yield ("-" + fill * whole + ("." + fill * behind if behind else "")).encode()
            yield ("0" * (whole - 1) + "7" + ("." + "0" * (behind - 1) + "3" if behind else "")).encode()
            for _ in range(12):
                digits = "".join(str(patterns.next(10)) for _ in range(whole + behind))
                sign = "-" if patterns.next(2) else ""
                yield (sign + digits[:whole] + ("." + digits[whole:] if behind else "")).encode()


# texts that are no numbers, each beside one that is
NO_NUMBERS = [b"", b"-", b"--1", b"-.5", b".5", b"5.", b"-5.", b".", b"-.", b"+1", b" 1", b"1 ", b"1\r", b"1\n", b"1e3", b"1E3", b"0x1",
              b"1,0", b"1.2.3", b"1..2", b"1.-2", b"1-", b"0000001", b"1234567", b"-1234567", b"0.0000000", b"0.1234567", b"1234567.1", b"nan", b"inf", b"-inf",
              b"1_000", b"\x00", b"1\x00", b"/", b":", b"1/2", b"1:2", b"\xb1", b"1.\xb2", b"1234567890123", b"0.1234567890123456789012345"]


def number_texts():
    patterns = Patterns()
    yield from midpoints(patterns)
    yield from near_midpoints(patterns)
    yield from lengths(patterns)
    yield from NO_NUMBERS


# ---- lines, each that is turned away with its nearest that is not


GOOD = [b"7", b"-1", b"10", b"20.5", b"32", b"64.25", b"0.75", b"-1", b"-1", b"-1"]
NAMES = ["frame", "id", "left", "top", "width", "height", "score", "x", "y", "z"]
FRAME, ID, LEFT, TOP, WIDTH, HEIGHT, SCORE = range(7)
COORDINATES = (7, 8, 9)


def line(fields, end=b"\n"):
    return b",".join(fields) + end


def with_field(at, text, fields=None):
    changed = list(fields or GOOD)
    changed[at] = text
    return changed


def drawn(patterns):
    """A line of values in range, behind frame 0 and before frame 1001."""

    def number(limit, places):
        whole = str(patterns.next(limit))
        return (whole + ("." + "".join(str(patterns.next(10)) for _ in range(places)) if places else "")).encode()

    frame = str(1 + patterns.next(1000)).rjust(1 + patterns.next(4), "0").encode()
    place = [(b"-" if patterns.next(3) == 0 else b"") + number(2000, patterns.next(7)) for _ in range(2)]
    sides = [str(1 + patterns.next(900)).encode() + (b"." + str(patterns.next(1000)).rjust(3, "0").encode() if patterns.next(2) else b"") for _ in range(2)]
    score = (b"0." + str(patterns.next(10**6)).rjust(6, "0").encode()) if patterns.next(8) else b"1"
    return [frame, b"-1", *place, *sides, score, b"-1", b"-1", b"-1"]


def wrong_texts(field):
    """What is not of a field's form, each with the nearest that is."""
    if field in (ID, *COORDINATES):
        for text in (b"", b"-", b"1", b"-2", b"-1.0", b"-01", b"-1 ", b" -1", b"+1", b"--1", b"-10", b"-1\r"):
            yield text, b"-1"
        return
    yield from ((b"", b"1"), (b" 1", b"1"), (b"1 ", b"1"), (b"+1", b"1"), (b"1e0", b"1"), (b"0000001", b"000001"), (b"1\n", b"1"), (b"1\r", b"1"))
    if field == FRAME:
        yield from ((b"-1", b"1"), (b"1.0", b"1"), (b"1.", b"1"), (b"0x1", b"1"), (b"1000000", b"000001"))
        return
    near = b"1" if field != SCORE else b"0"
    yield from ((b".5", b"0.5"), (b"1.", b"1"), (b"-", b"1"), (b"--1", b"1"), (b"0.1234567", b"0.123456"), (b"0.5.5", b"0.5"), (b"0,5", b"0.5"),
                (b"nan", near), (b"inf", near), (b"1234567", b"000001"), (b"0000000.5", b"000000.5"))


def malformed(patterns):
    """51, each with its nearest accepted one."""
    for end, name in ((b"", "no line feed"), (b"\r\n", "carriage return"), (b"\n\n", "two line feeds"), (b" \n", "blank"), (b",\n", "comma"), (b"\r", "carriage return alone"), (b"\x00", "zero")):
        for _ in range(14):
            fields = drawn(patterns)
            yield name, line(fields, end), line(fields)
    for _ in range(20):
        fields = drawn(patterns)
        yield "nine fields", line(fields[:-1]), line(fields)
        yield "eleven fields", line(fields + [b"-1"]), line(fields)
        yield "seven fields", line(fields[:7]), line(fields)
        yield "line feed in the middle", line(fields).replace(b",", b"\n,", 1), line(fields)
    yield "nothing", b"", line(GOOD)
    yield "a line feed alone", b"\n", line(GOOD)
    yield "commas alone", b"," * 9 + b"\n", line(GOOD)
    for field in range(10):
        for wrong, right in wrong_texts(field):
            for _ in range(3):
                fields = drawn(patterns)
                yield NAMES[field], line(with_field(field, wrong, fields)), line(with_field(field, right, fields))


# left, top, width, height: 65536.003906 is 65536, and 65536.003907 is not
BEYOND = [(b"65536.003907", b"65536.003906"), (b"65537", b"65536"), (b"999999.999999", b"65536"), (b"065536.01", b"065536.00")]
# -0.000000 is -0, which is not above 0
WITHOUT_AREA = [(b"0", b"0.000001"), (b"-0", b"0.000001"), (b"0.000000", b"0.000001"), (b"-0.000000", b"0.000001"), (b"-1", b"1"), (b"-0.000001", b"0.000001")]
SCORES = [(b"1.000001", b"1.000000"), (b"-0.000001", b"-0.000000"), (b"2", b"1"), (b"-1", b"-0"), (b"100", b"1"), (b"000001.000001", b"000001")]


def bad_values(patterns):
    """52, each with its nearest accepted one: lines and previous frame numbers."""
    for _ in range(24):
        fields = drawn(patterns)
        for at in (LEFT, TOP):
            for wrong, right in BEYOND:
                yield NAMES[at] + " beyond", 0, line(with_field(at, wrong, fields)), 0, line(with_field(at, right, fields))
                yield NAMES[at] + " beyond", 0, line(with_field(at, b"-" + wrong, fields)), 0, line(with_field(at, b"-" + right, fields))
    for _ in range(3):
        fields = drawn(patterns)
        for at in (WIDTH, HEIGHT):
            for wrong, right in BEYOND + WITHOUT_AREA:
                yield NAMES[at], 0, line(with_field(at, wrong, fields)), 0, line(with_field(at, right, fields))
        for wrong, right in SCORES:
            yield "score", 0, line(with_field(SCORE, wrong, fields)), 0, line(with_field(SCORE, right, fields))
    for previous in (0, 1, 2, 999, 1000, 1001, 5000, 99000, 998999, 998998, 999998, 999999):
        fields = drawn(patterns)
        for frame, right in ((0, max(previous, 1)), (previous - 1, max(previous, 1)), (previous + 1001, previous + 1000), (999999, min(previous + 1000, 999999))):
            if 0 <= frame <= 999999 and right <= 999999 and (frame == 0 or frame < previous or frame > previous + 1000):
                yield "frame", previous, line(with_field(FRAME, str(frame).encode(), fields)), previous, line(with_field(FRAME, str(right).encode(), fields))
                yield "frame, zeros in front", previous, line(with_field(FRAME, str(frame).rjust(6, "0").encode(), fields)), previous, line(with_field(FRAME, str(right).rjust(6, "0").encode(), fields))
    # the previous frame number is any u32
    for previous, near in ((1000000, 999999), (2**31, 999999), (2**32 - 1, 999999), (2**32 - 1000, 999999)):
        fields = with_field(FRAME, b"999999", drawn(patterns))
        yield "previous frame", previous, line(fields), near, line(fields)


def no_room(patterns):
    """53, each with its nearest accepted one."""
    for room in list(range(RECORD)) * 21:
        yield room, line(drawn(patterns))


def several(patterns):
    """More than one at once: the first is said."""
    for room in (0, RECORD - 1, RECORD):
        for _ in range(6):
            fields = with_field(SCORE, b"1.5", drawn(patterns))
            yield "51 before 52 and 53", 51, line(with_field(ID, b"1", fields)), 0, room
            yield "52 before 53", 52, line(fields), 0, room


def calls():
    """Title, line, previous frame number and room; and what is expected of the refusal, as a check of the list itself."""
    patterns = Patterns()
    for name, wrong, right in malformed(patterns):
        yield f"51 {name}", wrong, 0, CELLS, 51
        yield f"   {name}, accepted", right, 0, CELLS, 0
    for name, previous, wrong, near, right in bad_values(patterns):
        yield f"52 {name}", wrong, previous, CELLS, 52
        yield f"   {name}, accepted", right, near, CELLS, 0
    for room, text in no_room(patterns):
        yield f"53 room for {room}", text, 0, room, 53
        yield f"   room for {RECORD}, accepted", text, 0, RECORD, 0
    for name, refusal, text, previous, room in several(patterns):
        yield name, text, previous, room, refusal


def detections(patterns):
    """For motbox: lines that fill its buffers more than once, and a last one that is turned away."""
    for k in range(4000):
        yield line(with_field(FRAME, str(1 + k // 4).encode(), drawn(patterns)))
    yield line(with_field(FRAME, b"1001"), b"\r\n")
    yield line(with_field(FRAME, b"1001"))


def records(lines):
    """What motbox writes: the records until a line is turned away."""
    previous = 0
    for each in lines:
        refusal, frame, record = answer(each, previous, RECORD)
        if refusal:
            return
        previous = frame
        yield record[:RECORD]


# ---- the files: words of four bytes, the lowest first


def word(n):
    return n.to_bytes(4, "little")


def step(r):
    """The generator of docs/ORACLE.md, which digests go by."""
    r ^= r << 13 & 2**64 - 1
    r ^= r >> 7
    return (r ^ r << 17) & 2**64 - 1


def digest(data):
    total = 1
    for byte in data:
        total = step(total ^ byte)
    return total


def main():
    asked, answered = [], []
    numbers = list(dict.fromkeys(number_texts()))
    for text in numbers:
        asked.append(word(1) + word(len(text)) + text)
        bits = nearest(text)
        answered.append("none" if bits is None else f"{bits:08x}")
    counts = {}
    for title, text, previous, room, expected in calls():
        refusal, frame, cells = answer(text, previous, room)
        assert refusal == expected, (title, text, previous, room, refusal)
        counts[refusal] = counts.get(refusal, 0) + 1
        asked.append(word(2) + word(previous) + word(room) + word(len(text)) + text + title.ljust(40).encode())
        answered.append(f"{title.ljust(40)} {refusal} {frame} {digest(cells):016x}")
    with open("crates/mot_vectors/stdin", "wb") as file:
        file.writelines(asked)
    with open("crates/mot_vectors/stdout", "w", encoding="ascii", newline="\n") as file:
        file.writelines(a + "\n" for a in answered)
    lines = list(detections(Patterns()))
    with open("crates/motbox/stdin", "wb") as file:
        file.writelines(lines)
    with open("crates/motbox/stdout", "wb") as file:
        file.writelines(records(lines))
    ties = sum(1 for t in numbers if nearest(t) is not None and not is_zero(nearest(t)) and tie(t))
    print(f"{len(numbers)} numbers, {ties} of them half way between two floats; lines:", ", ".join(f"{n} with {r}" for r, n in sorted(counts.items())))


def tie(text):
    x, bits = exact(text), nearest(text) % SIGN
    return x in ((value(bits - 1) + value(bits)) / 2, (value(bits) + value(bits + 1)) / 2)


if __name__ == "__main__":
    main()
