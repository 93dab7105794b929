"""Box records of standard input as MOTChallenge detection text on standard output, with so many decimals: text.py PLACES.
A width, a height or a score that would be out of range by its rounding is put at the limit."""
import struct
import sys

places = int(sys.argv[1])
least = 10**-places if places else 1
data = sys.stdin.buffer.read()
for at in range(0, len(data), 25):
    frame, left, top, width, height, score, _ = struct.unpack("<I5fB", data[at:at + 25])
    numbers = left, top, max(width, least), max(height, least), min(max(score, 0), 1)
    print(frame, -1, *(f"{x:.{places}f}" for x in numbers), -1, -1, -1, sep=",")
