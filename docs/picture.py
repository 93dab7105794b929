"""Draws docs/picture.svg: boxes of four frames of the night visits, and the tracks that trackbox makes of them.

    crates/trackbox/out/trackbox < samples/visits.boxes | python3 docs/picture.py > docs/picture.svg

Every number that it writes is whole. The people are those of samples/README.md.
"""

import collections
import pathlib
import struct
import sys

FRAMES = (519, 525, 533, 580)
FIRST, LAST = 500, 619
PEOPLE = {1: ("sleeper", "#1f6fb2"), 3: ("partner", "#2e8b57"), 4: ("staff", "#c8641e")}
SCENE = (-90, 90, 530, 330)  # left, top, width and height of the room, in pixels of the camera
PANEL, GAP, LEFT = 192, 18, 96
HIGH = PANEL * SCENE[3] // SCENE[2]


def boxes():
    """Frame number to boxes: left, top, width, height, score."""
    data = (pathlib.Path(__file__).parent.parent / "samples/visits.boxes").read_bytes()
    frames = collections.defaultdict(list)
    for frame, *box, _ in struct.iter_unpack("<I5fB", data):
        frames[frame].append(box)
    return frames


def tracks(lines):
    """Frame number to tracks: id, left, top, width, height."""
    frames = collections.defaultdict(list)
    for line in lines:
        frame, name, *bits = line.split()
        place = [struct.unpack(">f", bytes.fromhex(b))[0] for b in bits[:4]]
        frames[int(frame)].append((int(name), *place))
    return frames


def text(x, y, words, colour="#333", anchor="start", size=13):
    return f'<text x="{x}" y="{y}" fill="{colour}" text-anchor="{anchor}" font-size="{size}">{words}</text>'


def area(x, y, place, colour, label):
    """A box in the panel at x, y, cut off at its left edge, with a label in its upper right corner."""
    left, top, width, height = (round(v) for v in place)
    a = max(0, (left - SCENE[0]) * PANEL // SCENE[2])
    b = (left + width - SCENE[0]) * PANEL // SCENE[2]
    t = (top - SCENE[1]) * PANEL // SCENE[2]
    h = height * PANEL // SCENE[2]
    return (
        f'<rect x="{x + a}" y="{y + t}" width="{b - a}" height="{h}" fill="{colour}1f" '
        f'stroke="{colour}" stroke-width="2"/>' + text(x + b - 4, y + t + 15, label, colour, "end", 11)
    )


def panel(k, y, areas):
    x = LEFT + k * (PANEL + GAP)
    frame = f'<rect x="{x}" y="{y}" width="{PANEL}" height="{HIGH}" fill="#f6f6f3" stroke="#bbb"/>'
    return frame + "".join(area(x, y, *a) for a in areas)


def lane(y, name, out):
    """A mark for each frame in which the track is put out."""
    words, colour = PEOPLE[name]
    wide = 4 * PANEL + 3 * GAP
    marks = [text(LEFT - 8, y + 11, f"id {name}", colour, "end")]
    for frame in range(FIRST, LAST + 1):
        if any(t[0] == name for t in out[frame]):
            a, b = ((frame - FIRST + k) * wide // (LAST - FIRST + 1) for k in (0, 1))
            marks.append(f'<rect x="{LEFT + a}" y="{y}" width="{b - a - 1}" height="14" fill="{colour}"/>')
    marks.append(text(LEFT + wide + 8, y + 11, words, colour))
    return "".join(marks)


def axis(y):
    wide = 4 * PANEL + 3 * GAP
    parts = []
    for frame in range(FIRST, LAST + 1, 20):
        x = LEFT + (frame - FIRST) * wide // (LAST - FIRST + 1)
        parts.append(text(x, y, str(frame), "#777", "start", 11))
    return "".join(parts)


def main():
    seen, out = boxes(), tracks(sys.stdin)
    top, low = 52, 52 + HIGH + 34
    parts = [text(LEFT, 22, "In: the boxes of each frame, each with a score and a label. Nothing says which belong together.", size=14)]
    for k, frame in enumerate(FRAMES):
        parts.append(text(LEFT + k * (PANEL + GAP), 44, f"frame {frame}", "#777", size=12))
        parts.append(panel(k, top, [(b[:4], "#777777", f"0.{round(b[4] * 100):02d}") for b in seen[frame]]))
        parts.append(panel(k, low, [(t[1:], PEOPLE[t[0]][1], f"id {t[0]}") for t in out[frame]]))
    parts.append(text(LEFT, low - 12, "Out: the tracks. A box that goes on from earlier frames keeps its id.", size=14))
    lanes = low + HIGH + 44
    parts.append(text(LEFT, lanes - 14, f"Frames {FIRST} to {LAST}: a mark where the track is put out, a gap where the box was missed or came back just now.", size=14))
    for k, name in enumerate(PEOPLE):
        parts.append(lane(lanes + 22 * k, name, out))
    parts.append(axis(lanes + 22 * len(PEOPLE) + 10))
    width, height = LEFT + 4 * PANEL + 3 * GAP + 84, lanes + 22 * len(PEOPLE) + 22
    print(f'<svg xmlns="http://www.w3.org/2000/svg" viewBox="0 0 {width} {height}" font-family="sans-serif">')
    print(f'<rect width="{width}" height="{height}" fill="#fff"/>')
    print("\n".join(parts))
    print("</svg>")


main()
