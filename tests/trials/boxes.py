"""The geometry of the images of a report, from the definitions of docs/definitions.md, "Sheets": the
axis with its marks, the use of a resource, the sizes and places of lines, and boxes of labels. A
box is as long as its label has columns of 0.6 em; no two boxes of a row overlap, and none leaves the
image or its own part of it."""

import datetime
import functools

from answers import Wrong, same
from images import SVG, columns, cut, place

WIDTH, EM = 1390, 9.6
# The heights of an image of resource use and of its marks.
USE_HEIGHT, USE_MARKS = 112, 89
MOST_LINES, USE_ROOM = 40, 27
DISTANCES = [n * 10**k for k in range(7) for n in (1, 5)][:-1]
MOST_DISTANCE = 10**9
WEEKS = (1, 2, 4, 8, 13, 26, 52, 104, 260, 520, 1040, 2600, 5200)
# A label of a week is between these places.
LEAST_PLACE, GREATEST_PLACE = 436, 1291
MOST_SHADED, MOST_NAMED = 2000, 366
# The last number of an axis leaves the image from here on.
LEAST_LONG = 100000
# Above this makespan there is no image of resource use.
MOST_USED = 100000


# ---- what is wanted


class Axis:
    """The axis of a chart: of time units, or of calendar days, which are the ordinals of the working
    days of all instants."""

    def __init__(self, makespan, days):
        self.days = days
        self.span = self.end(makespan)

    def begin(self, t):
        """The point at which the time unit from instant t on begins."""
        return self.days[t] - self.days[0] if self.days and t < len(self.days) else t

    def end(self, t):
        """The point at which the time unit up to instant t ends."""
        return self.begin(t - 1) + 1 if t > 0 else 0

    def from_place(self, t):
        return place(self.span, self.begin(t))

    def to_place(self, t):
        return place(self.span, self.end(t))

    def week(self, t):
        return (self.days[t] - 1) // 7

    def starts_week(self, t):
        return t > 0 and self.week(t - 1) != self.week(t)

    @functools.cached_property
    def first_weekday(self):
        """The first weekday of work, 0 for a Monday."""
        return min((day - 1) % 7 for day in self.days)

    def is_labelled(self, t):
        """Whether an instant has a label: the first one, and the first one of each labelled week, if
        it is on the first weekday of work."""
        if t == 0:
            return True
        if not self.starts_week(t) or (self.days[t] - 1) % 7 != self.first_weekday:
            return False
        days = self.span + self.span // 3
        distance = next((weeks for weeks in WEEKS if days <= 12 * 7 * weeks), MOST_DISTANCE // 7)
        has_room = LEAST_PLACE <= self.from_place(t) <= GREATEST_PLACE
        return has_room and (self.week(t) - self.week(0)) % distance == 0

    def day_label(self, t):
        day = datetime.date.fromordinal(self.days[t])
        return day.isoformat() if self.span > MOST_NAMED else f"{day:%a} {day.day} {day:%b}"

    @functools.cached_property
    def labelled(self):
        """The instants that have a label."""
        return [t for t in range(len(self.days)) if self.is_labelled(t)]

    @functools.cached_property
    def labels(self):
        """The places and the texts of the labels."""
        if self.days:
            return [(self.from_place(t), self.day_label(t)) for t in self.labelled]
        distance = next((units for units in DISTANCES if self.span <= 12 * units), MOST_DISTANCE)
        return [(place(self.span, at), str(at)) for at in range(0, self.span + 1, distance)]

    def shaded(self):
        """The instants whose weeks and days without work are marked."""
        return range(len(self.days)) if len(self.days) <= MOST_SHADED else ()

    def off(self, height):
        """The path of the days without work."""
        pairs = [(self.to_place(t), self.from_place(t)) for t in self.shaded() if self.end(t) < self.begin(t)]
        return "".join(f"M{left} 19H{right}v{height}H{left}z" for left, right in pairs)

    def weeks(self):
        """The path of the marks of weeks."""
        return "".join(f"M{self.from_place(t)} 15v4" for t in self.shaded() if self.starts_week(t))


def use_path(axis, makespan, capacity, uses):
    """The path of the use of a resource, of which `uses` has start, end and amount of each activity."""
    change = [0] * (makespan + 1)
    for start, end, amount in uses:
        change[start] += amount
        change[end] -= amount
    amount, path = 0, "M330 108"
    for t in range(makespan):
        amount += change[t]
        if change[t]:
            # A use far above the capacity ends at the top of the image.
            top = max(108 - amount * 80 // max(capacity, 1), 0)
            path += f"H{axis.from_place(t)}V{top}"
    return path + "H1330V108z"


# ---- what is found


def given(element, *names):
    return tuple(element.get(name) for name in names)


def text_of(element):
    return "".join(element.itertext())


def children(element, tag, kind=None):
    """The elements of a tag, and of a class, directly in another one."""
    found = element.findall(SVG + tag)
    return [one for one in found if kind is None or kind in (one.get("class") or "").split()]


def check_marks(what, image, axis, height):
    """The size of an image, and the marks of its axis."""
    marks = height - 21 if height != USE_HEIGHT else USE_MARKS
    same(f"{what}: the size", given(image, "width", "height", "viewBox"), (str(WIDTH), str(height), f"0 0 {WIDTH} {height}"))
    paths = [path.get("d") for kind in ("off", "week") for path in children(image, "path", kind)]
    same(f"{what}: the days and weeks", paths, [axis.off(marks), axis.weeks()] if axis.days else [])
    ticks = [path.get("d") for path in children(image, "path", "tick")]
    same(f"{what}: the marks", ticks, [f"M{x} 19v{marks}" for x, _ in axis.labels])
    texts = [text for text in children(image, "text") if text.get("class") is None]
    found = [(*given(text, "x", "y", "dx"), text_of(text)) for text in texts]
    same(f"{what}: the labels", found, [(str(x), "14", "3", label) for x, label in axis.labels])


def check_line(what, group, k):
    """The places and sizes in line k of a chart."""
    same(f"{what}: its place", group.get("transform"), f"translate(0,{20 * k + 22})")
    (own,) = children(group, "svg")
    (label,) = children(own, "text")
    same(f"{what}: its label", (*given(own, "width", "height"), *given(label, "x", "y")), ("322", "20", "4", "15"))
    for bar in children(group, "rect"):
        kinds = bar.get("class").split()
        same(f"{what}: a bar", given(bar, "y", "height"), ("2", "16"))
        same(f"{what}: a stroke", "wide" in kinds, int(bar.get("width")) >= 4)


def check_chart(what, images, axis):
    """The sizes, marks and lines of the images of a chart."""
    counts = [len(children(image, "g")) for image in images]
    same(f"{what}: the lines of each image", counts[:-1], [MOST_LINES] * (len(counts) - 1))
    for image, count in zip(images, counts):
        same(f"{what}: at most 40 lines", 0 < count <= MOST_LINES, True)
        same(f"{what}: the title of an image", text_of(image.find(SVG + "title")), "Gantt chart")
        check_marks(what, image, axis, 20 * count + 26)
        for k, group in enumerate(children(image, "g")):
            check_line(f"{what}: line {k}", group, k)


def check_use(what, image, axis, name, capacity, path):
    """The image of the use of a resource."""
    check_marks(what, image, axis, USE_HEIGHT)
    same(f"{what}: the title of a use", text_of(image.find(SVG + "title")), name)
    same(f"{what}: the use", [one.get("d") for one in children(image, "path", "use")], [path])
    same(f"{what}: the capacity", [one.get("d") for one in children(image, "path", "most")], ["M330 28h1000"])
    (number,) = children(image, "text", "end")
    same(f"{what}: its number", (*given(number, "x", "y"), text_of(number)), ("324", "34", str(capacity)))
    (own,) = children(image, "svg")
    (label,) = children(own, "text")
    found = (*given(own, "width", "height"), *given(label, "x", "y"), text_of(label))
    same(f"{what}: its label", found, ("270", str(USE_HEIGHT), "4", "74", cut(name, USE_ROOM)))


# ---- boxes


class Box:
    """The room of a label: from, to, and the limits of it."""

    def __init__(self, text, least=0, most=WIDTH):
        self.text = text_of(text)
        length = EM * sum(map(columns, self.text))
        self.left = float(text.get("x")) + float(text.get("dx", "0"))
        self.left -= length if text.get("class") == "end" else 0
        self.right = self.left + length
        self.is_within = least <= self.left and self.right <= most


def rows_of(image):
    """The boxes of each row of labels: the axis, the lines, the number and the name of a resource."""
    rows = [[Box(text) for text in children(image, "text") if text.get("class") is None]]
    for group in children(image, "g"):
        named = [Box(text, 0, float(own.get("width"))) for own in children(group, "svg") for text in children(own, "text")]
        rows.append(named + [Box(text) for text in children(group, "text")])
    beside = [float(own.get("width")) for own in children(image, "svg")]
    rows.append([Box(text, max(beside, default=0)) for text in children(image, "text", "end")])
    rows += [[Box(text, 0, float(own.get("width"))) for text in children(own, "text")] for own in children(image, "svg")]
    return rows


def long_labels(axis):
    """The fault that docs/known-gaps.md names: a last number from 100,000 on leaves the image."""
    return set() if axis.days else {str(axis.span)} if axis.span >= LEAST_LONG else set()


def check_boxes(what, image, long):
    """Whether a label has the known fault; no others leave their room, and none overlap."""
    found = False
    for row in rows_of(image):
        row.sort(key=lambda box: (box.left, box.right))
        for box in row:
            if not box.is_within and box.text not in long:
                raise Wrong(f"{what}: the label {box.text!r} leaves its room, to {box.right:.1f}")
            found |= not box.is_within
        for one, other in zip(row, row[1:]):
            if one.right > other.left:
                raise Wrong(f"{what}: {one.text!r} ends at {one.right:.1f}, {other.text!r} begins at {other.left:.1f}")
    return found
