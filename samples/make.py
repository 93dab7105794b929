"""Makes the three sample nights, box records as trackbox reads them; README.md says what happens in each.

    python3 samples/make.py

It writes quiet.boxes, visits.boxes and crowded.boxes beside itself, the same bytes on each run. Places and sizes are
whole numbers of 64ths of a pixel and scores of 1024ths, so that each is exactly a float.
"""

import pathlib
import struct

PIXEL = 64
SLEEPER, PARTNER, STAFF = 1, 2, 3


class Random:
    """A xorshift generator of 64 bits."""

    def __init__(self, seed):
        self.state = seed

    def below(self, most):
        r = self.state
        r ^= r << 13 & 0xFFFF_FFFF_FFFF_FFFF
        r ^= r >> 7
        r ^= r << 17 & 0xFFFF_FFFF_FFFF_FFFF
        self.state = r
        return (r >> 11) % most

    def one_in(self, many):
        return self.below(many) == 0

    def about(self, middle, spread):
        return middle - spread + self.below(2 * spread + 1)


def towards(place, goal, most):
    """The place after a step of at most `most`."""
    return place + max(-most, min(most, goal - place))


class Body:
    """Someone in the picture: who they are, left, top, width and height, and where they are going."""

    def __init__(self, random, label, at, speed, missed, scores):
        self.random = random
        self.label = label
        self.at = [PIXEL * k for k in at]
        self.goal = list(self.at)
        self.speed = speed * PIXEL
        self.missed = missed
        self.scores = scores

    def go(self, left, top):
        self.goal[0:2] = [left * PIXEL, top * PIXEL]

    def turn(self):
        """A sleeper turns over: moves a little, and lies broader or narrower."""
        self.goal[0] = self.random.about(self.goal[0], 12 * PIXEL)
        self.goal[2] = self.random.about(100 * PIXEL, 20 * PIXEL)

    def step(self):
        self.at = [towards(place, goal, self.speed) for place, goal in zip(self.at, self.goal)]

    def box(self, hidden=False):
        """The box that a detector gives, a pixel off at most; none where it misses them. Hidden: half the score."""
        if self.random.one_in(self.missed):
            return []
        low, high = self.scores
        score = low + self.random.below(high - low + 1)
        seen = [self.random.about(k, PIXEL) for k in self.at]
        return [seen + [score // 2 if hidden else score, self.label]]


def sleeper(random, at, label=SLEEPER):
    return Body(random, label, at, 4, 12, (560, 990))


def walker(random, at, missed, label=STAFF):
    return Body(random, label, at, 14, missed, (480, 980))


def night(frames, boxes):
    """The records of frames 1 to `frames`; `boxes` gives those of one."""
    record = struct.Struct("<I5fB")
    made = bytearray()
    for frame in range(1, frames + 1):
        for left, top, width, height, score, label in boxes(frame):
            made += record.pack(frame, left / PIXEL, top / PIXEL, width / PIXEL, height / PIXEL, score / 1024, label)
    return bytes(made)


def quiet(random):
    """One sleeper, who turns over, and leaves the bed twice."""
    body = sleeper(random, [260, 180, 100, 220])

    def boxes(frame):
        if random.one_in(300):
            body.turn()
        body.step()
        away = 1900 <= frame < 1960 or 3700 <= frame < 3925
        return [] if away else body.box()

    return night(5000, boxes)


def visits(random):
    """A sleeper, a partner for most of the night, and staff, who come to the bed and go."""
    bed = [sleeper(random, [220, 180, 100, 220]), sleeper(random, [302, 190, 95, 210], PARTNER)]
    staff = walker(random, [-90, 120, 80, 260], 10)

    def staff_goes(frame):
        if frame % 400 == 120:
            staff.go(150, 120)
        if frame % 400 == 190:
            staff.go(-90, 120)

    def boxes(frame):
        staff_goes(frame)
        for body in bed + [staff]:
            body.step()
            if body is not staff and random.one_in(250):
                body.turn()
        hides = staff.at[0] > 100 * PIXEL
        seen = bed[0].box(hidden=hides and random.one_in(2))
        seen += bed[1].box() if 300 <= frame < 2600 else []
        return seen + (staff.box() if staff.at[0] > -80 * PIXEL else [])

    return night(3000, boxes)


def crowded(random):
    """A ward of eight beds, up to nine people who walk between them, every third of them no staff, and boxes where nobody
    is, with any label."""
    beds = [sleeper(random, [20 + 160 * (k % 4), 20 + 260 * (k // 4), 100, 200]) for k in range(8)]
    labels = [STAFF, STAFF, PARTNER] * 3
    people = [walker(random, [random.below(560), random.below(340), 60, 160], 7, label) for label in labels]

    def ghost():
        place = [random.below(560 * PIXEL), random.below(340 * PIXEL)]
        size = [random.about(40 * PIXEL, 20 * PIXEL), random.about(80 * PIXEL, 40 * PIXEL)]
        score = 100 + random.below(350)
        return [place + size + [score, 1 + score % 3]]

    def boxes(frame):
        here = people[: min(9, frame // 40)]
        for body in here:
            if random.one_in(40):
                body.go(random.below(560), random.below(340))
            body.step()
        seen = [b for body in beds + here for b in body.box()]
        return seen + (ghost() if random.one_in(4) else [])

    return night(600, boxes)


def main():
    folder = pathlib.Path(__file__).parent
    for number, make in enumerate([quiet, visits, crowded]):
        made = make(Random(88172645463325252 + number))
        (folder / f"{make.__name__}.boxes").write_bytes(made)
        print(f"{make.__name__}.boxes: {len(made) // 25} boxes, {len(made)} bytes")


if __name__ == "__main__":
    main()
