"""Texts of projects and job shops, right ones and wrong ones."""

WORDS = (
    "x", "-1", "0", "1", "2", "3", "7", "007", "10000", "10001", "999999999", "1234567890", "1\xe4",
    "+", "instance", "503", "17", "51", "21",
)
NAMES = ("a", "b", "c", "-", "A.1_b~", "x:y@(z)*", "a-very-long-name-of-an-instance-that-is-there")
# Needs, and capacities that mostly hold them.
AMOUNTS = (((0, 1, 1, 1), (1, 1, 2)), ((0, 1, 1, 2), (2, 2, 3)), ((1, 2, 2, 3), (3, 4, 5)))
# Durations; the longer ones often add up to what a chart shows with one unit alone, or just not.
SHORT = (0, 1, 1, 1, 2, 2, 3, 3, 4, 5)
LONG = ((0, 60), (0, 20, 40), (0, 30), (0, 0, 61), (0, 0, 60, 1), (0, 120, 1), (9, 10000))
WIDE = ("  ", "\t", "\x0b\x0c", " \x1a", " \r", "\n", " \n\n")
# Sizes at their limits and beyond, also those of a search.
SIZES = ((11, 10), (50, 1), (51, 1), (1, 20), (1, 21), (20, 5), (6, 17), (7, 15))
TITLES = ("PRECEDENCE RELATIONS:", "REQUESTS/DURATIONS:", "RESOURCEAVAILABILITIES:")


def arcs_of(draw, count, density=0.4):
    """Arcs that rise, and now and then one that doesn't."""
    arcs = [
        (i, j)
        for i in range(1, count + 1)
        for j in range(i + 1, count + 1)
        if draw.chance(density)
    ]
    if draw.chance(0.07):
        arcs.append((draw.number(1, count), draw.number(1, count)))
    return list(dict.fromkeys(arcs))


def project_head(draw, count, resources):
    """The keys with their values, seldom one of them another."""
    values = [1, count, resources, 0, 0]
    if draw.slips(0.02):
        values[draw.number(0, 4)] = draw.pick((0, 1, 2, 17, 503, "x", ""))
    return [
        f"projects : {values[0]}",
        f"jobs (incl. supersource/sink ):  {values[1]}",
        "RESOURCES",
        f"  - renewable                 :  {values[2]}   R",
        f"  - nonrenewable              :  {values[3]}   N",
        f"  - doubly constrained        :  {values[4]}   D",
    ]


def successors_of(draw, arcs, i):
    """The successors in the row of an activity, in any order, seldom one of them twice."""
    own = [target for source, target in arcs if source == i]
    draw.random.shuffle(own)
    return [*own, own[0]] if len(own) > 1 and draw.chance(0.01) else own


def row(*numbers):
    return " ".join(map(str, numbers))


def precedence_rows(draw, arcs, count):
    lists = [successors_of(draw, arcs, i) for i in range(1, count + 1)]
    return [row(i, 1, len(own), *own) for i, own in enumerate(lists, 1)]


def request_rows(draw, durations, resources, needs):
    lists = [[own, *(draw.pick(needs) for _ in range(resources))] for own in durations]
    return [row(i, 1, *own) for i, own in enumerate(lists, 1)]


def project_lines(draw, arcs, durations, resources, amounts=AMOUNTS):
    """The lines of a project file."""
    head, (needs, amounts) = project_head(draw, len(durations), resources), draw.pick(amounts)
    rows = [TITLES[0], "jobnr. #modes #successors", *precedence_rows(draw, arcs, len(durations))]
    rows += [TITLES[1], "jobnr. mode duration R", *request_rows(draw, durations, resources, needs)]
    capacities = [draw.pick((0, 1) if draw.slips(0.03) else amounts) for _ in range(resources)]
    return [*head, *rows, TITLES[2], "R", row(*capacities)]


def laid_out(draw, lines):
    """Lines with stars and empty ones between them, blanks in them, and an end of their own."""
    found = []
    for line in lines:
        found += [draw.pick(("***", "", "  ", "-*-"))] if draw.chance(0.08) else []
        is_wide = ":" not in line and draw.chance(0.1)
        found.append(line.replace(" ", draw.pick(WIDE)) if is_wide else line)
    end = draw.pick(("\n", "\n", "\n", "\r\n"))
    return end.join(found) + draw.pick((end, end, ""))


def chain_text(draw):
    """A project whose activities follow each other, so long that its last day may be beyond the
    calendar: from 2000-01-01 on there are 417,420 Sundays."""
    count = draw.pick((40, 47, 100, 101, 42, 42, 42, 42, 42, 42, 42, 42))
    arcs = [(i, i + 1) for i in range(1, count)]
    durations = [10000] * (count - 1) + [draw.pick((7419, 7420, 7420, 7420, 7421, 10000))]
    return laid_out(draw, project_lines(draw, arcs, durations, 1, AMOUNTS[:1]))


def durations_of(draw, count):
    """Durations, short or long ones alike."""
    own = draw.pick(LONG) if draw.chance(0.2) else SHORT
    return [draw.pick(own) for _ in range(count)]


def project_text(draw):
    """The text of a project."""
    if draw.chance(0.05):
        return spoiled_at_times(draw, chain_text(draw), 0.05)
    count = draw.pick((2, 3, 4, 5, 6, 6, 7, 7, 7))
    durations = durations_of(draw, count)
    if draw.chance(0.6):
        durations[0], durations[-1] = 0, 0
    resources = draw.pick((16, 17)) if draw.chance(0.02) else draw.number(1, 2)
    lines = project_lines(draw, arcs_of(draw, count), durations, resources)
    return spoiled_at_times(draw, laid_out(draw, lines), 0.2)


def shop_lines(draw, jobs, machines):
    """The numbers of a shop; now and then a job visits a machine twice."""
    lines, longest = [f"{jobs} {machines}"], jobs * machines > 100 and draw.chance(0.3)
    for _ in range(jobs):
        order = draw.random.sample(range(machines), machines)
        if draw.chance(0.2):
            order = [draw.number(0, machines - 1) for _ in range(machines)]
        times = [10000] * machines if longest else durations_of(draw, machines)
        lines.append(" ".join(f"{machine} {time}" for machine, time in zip(order, times)))
    return lines


def shop_text(draw):
    """The text of a job shop file."""
    sizes = draw.pick(SIZES) if draw.chance(0.04) else (draw.pick((1, 2, 3, 3)), draw.number(1, 3))
    lines = shop_lines(draw, *sizes)
    if draw.chance(0.3):
        return spoiled_at_times(draw, laid_out(draw, lines), 0.2)
    found = ["a collection"]
    for _ in range(draw.number(1, 2)):
        found += ["+++", f"instance {draw.pick(NAMES)}", "+++"][draw.number(0, 1) :]
        found += [draw.pick(("a description", "1 1")), *lines, *draw.pick(([], ["++ +"]))]
        lines = shop_lines(draw, draw.number(1, 2), draw.number(1, 3))
    found = [line for line in found if line != "***"]
    return spoiled_at_times(draw, laid_out(draw, found), 0.2)


def spoiled_at_times(draw, text, part):
    """The bytes of a text, spoiled in so many of all cases."""
    return spoiled(draw, text.encode()) if draw.chance(part) else text.encode()


def spoiled(draw, text):
    """A text with one thing changed: a word, a line, a byte, or its end."""
    lines = text.split(b"\n")
    place = draw.number(0, len(lines) - 1)
    way = draw.number(0, 9)
    if way < 5:
        lines[place] = spoiled_line(draw, lines[place])
    elif way == 5:
        del lines[place]
    elif way == 6:
        lines.insert(place, draw.pick(lines))
    elif way == 7:
        lines[place] = draw.other_byte(lines[place])
    elif way == 8:
        lines[place] += draw.pick((b"\0", b" 1", b" x"))
    else:
        return text[: draw.number(0, len(text))]
    return b"\n".join(lines)


def spoiled_line(draw, line):
    """A line with one word replaced, put in or taken out."""
    words = line.split()
    place = draw.number(0, len(words))
    kept = words[place + draw.number(0, 1) :]
    put = [draw.pick(WORDS).encode("latin-1")] if draw.chance(0.7) else []
    return b" ".join([*words[:place], *put, *kept])
