"""The bytes of connections, right ones and wrong ones."""

# Lines that are no fields.
NO_FIELDS = ("X : y", " x", ": x", "X", "X\x7f: y", "X: \x01", "X: \r y", "\xe4: y")


def fields_of(draw, version, key, length):
    """The fields of a head, in any order."""
    fields = [] if version == "1.0" and draw.chance(0.5) else ["Host: 127.0.0.1"]
    if key is not None:
        name = draw.pick(("Desk-Key: ", "desk-key:", "DESK-KEY:\t "))
        fields.append(name + key + draw.pick(("", "", "", " ", "\t \t")))
    if length or draw.chance(0.1):
        fields.append(f"Content-Length: {length}")
    if draw.chance(0.1):
        fields.append(draw.pick(("Accept: */*", "X: ", "X-Desk-Key: a", "Expect:", "X: \xe4")))
    draw.random.shuffle(fields)
    return fields


def joined(draw, first, fields, body):
    """The bytes of a request."""
    end = "\n" if draw.chance(0.05) else "\r\n"
    before = draw.pick((end, end * 3)) if draw.chance(0.03) else ""
    head = before + end.join([first, *fields, "", ""])
    return head.encode() + body + (b"behind" if draw.chance(0.02) else b"")


def request(draw, method, path, key, body):
    """The bytes of a whole request."""
    version = draw.pick(("1.1",) * 9 + ("1.0",))
    fields = fields_of(draw, version, key, len(body))
    return joined(draw, f"{method} {path} HTTP/{version}", fields, body)


def wrong_lengths(draw, length):
    """Fields of lengths that are wrong, or seldom right."""
    values = draw.pick((
        ("x",), ("",), ("-1",), (f"+{length}",), (f"{length}, {length}",), (length + 1,),
        (length + 9999,), (max(length - 1, 0),), (f"00{length}", length), (length, length + 1),
        (), (1048576,), ("0" * 30 + str(length),), (length, "x"), (length, length),
    ))
    return [f"Content-Length: {value}" for value in values]


def without(fields, name):
    return [field for field in fields if not field.startswith(name)]


def other_fields(draw, fields, key, length):
    """Fields of which some are others, and mostly wrong."""
    way = draw.number(0, 10)
    if way < 3:
        return [*without(fields, "Content-Length"), *wrong_lengths(draw, length)]
    if way == 3:
        return without(fields, "Host")
    if way == 4:
        return [*fields, "host: other"]
    if way == 5:
        return [*fields, draw.pick(("Transfer-Encoding: chunked", "transfer-encoding:"))]
    if way == 6:
        count = draw.pick((63, 64, 65, 70)) - len(fields)
        return [*fields, *(f"X-{n}: {n}" for n in range(count))]
    if way == 7:
        return [*fields, "X: " + "x" * draw.pick((7000, 8000, 9000))]
    if way == 8:
        return [*fields, f"desk-key: {key}"]
    if way == 9:
        length = draw.pick((1048577, 9999999, "9" * 30))
        return [*without(fields, "Content-Length"), f"Content-Length: {length}"]
    return [*fields, draw.pick(NO_FIELDS)]


def first_lines(method, path):
    """First lines that are wrong, or of another route or method."""
    return (
        f"HEAD {path} HTTP/1.1", f"PUT {path} HTTP/1.1", f"{method.lower()} {path} HTTP/1.1",
        f"{method} {path}/ HTTP/1.1", f"{method} {path}?a=1 HTTP/1.1", f"HEAD {path}/x HTTP/1.1",
        f"{method} /{path} HTTP/1.1", f"{method} http://127.0.0.1{path} HTTP/1.1",
        f"{method} {path} HTTP/1.2", f"{method} {path} HTTP/2.0", f"{method} {path}",
        f"{method}  {path} HTTP/1.1", f"OPTIONS * HTTP/1.1", f"{method} {path} HTTP/1.1 ",
        f"{method} / HTTP/1.1", f"{method} {path}%20 HTTP/1.1", f"{method} /desks HTTP/1.1",
        f"GET {path} HTTP/1.1", f"POST {path} HTTP/1.1", f"DELETE {path} HTTP/1.1",
        f"{method} {path}# HTTP/1.1", f"{method} {path} http/1.1", f"M\x01 {path} HTTP/1.1",
    )


def long_fields(draw, first, fields):
    """Fields with one more, so that the head has about as many bytes as it may have."""
    rest = len("\r\n".join([first, *fields, "X: ", "", ""]))
    return [*fields, "X: " + "x" * (draw.number(8190, 8194) - rest)]


def faulty_request(draw, method, path, key, body):
    """The bytes of a connection with some things changed."""
    key, first = key or "no-key-at-all", f"{method} {path} HTTP/1.1"
    fields = fields_of(draw, "1.1", key, len(body))
    way = draw.number(0, 10)
    if way < 4 or draw.chance(0.2):
        first = draw.pick(first_lines(method, path))
    if way == 4:
        fields = long_fields(draw, first, fields)
    for _ in range(draw.pick((1, 1, 2, 3)) if 4 < way < 9 else draw.pick((0, 0, 0, 1))):
        fields = other_fields(draw, fields, key, len(body))
    sent = joined(draw, first, fields, body)
    if way > 8:
        head = len(sent) - len(body)
        return draw.other_byte(sent[:head]) + sent[head:]
    return sent[: draw.number(0, len(sent))] if draw.chance(0.05) else sent
