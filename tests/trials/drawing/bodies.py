"""Bodies of commands, right ones and wrong ones."""

import json
import re

# Keys and names as long or as short as they may be.
EDGES = ("!" * 8, "~" * 64, "a" * 32, "a" * 33)

# Texts in the place of a number, mostly of none.
NUMBERS = (
    b"-0", b"1e0", b"1.0", b"01", b"+1", b"1E2", b"0x1", b".5", b"1.", b"18446744073709551615",
    b"18446744073709551616", b"0", b"1", b"2", b"10000", b"10001", b"503",
)
NO_JSON = (
    b"", b"{", b"[]", b"null", b'"a"', b"{}", b"{,}", b'{"a":NaN}', b'{"a":1e999}', b"\xff",
    b'{"a":"\\ud800"}', b'{"a":Infinity}', b"\xef\xbb\xbf{}", b'{"a":"\n"}', b'{"a":01}',
)
# Values of a member that is ignored where it is JSON.
VALUES = (
    b"NaN", b"1e999", b"-1e999", b"0e999", b"1e-999", b"-0", b"1.", b"-", b"9" * 400, b"9" * 300,
    b"1E+5", b"0.5e-1", b'"\\ud800"', b'"\\udc00"', b'"\\ud83d\\ude00"', b'"\\ud83d\\ud83d"',
    b'"\\u12"', b'"\\x"', b'"\\u0000\\b\\/"', b"'a'", b"nul", b"truetrue", b"[1,]", b'{"a":}',
)


def escaped(draw, text):
    """The text of a string in JSON, at times with an escape for one of its letters."""
    spelled = json.dumps(text)
    if text and draw.chance(0.1):
        spelled = spelled.replace(text[0], f"\\u{ord(text[0]):04x}", 1)
    return spelled


def spelled(draw, members):
    """The bytes of an object with these members, in any order, at times with others or twice."""
    pairs = [
        (escaped(draw, name), escaped(draw, value) if type(value) is str else json.dumps(value))
        for name, value in members.items()
    ]
    draw.random.shuffle(pairs)
    if pairs and draw.chance(0.1):
        pairs.insert(0, (pairs[-1][0], draw.pick(('"twice"', "7", "[[]]", "null"))))
    if draw.chance(0.1):
        pairs.append(('"more"', draw.pick(('"\\u00e4"', "-1.5e3", "[1, {}]", "{}", "true"))))
    blank = draw.pick(("", "", " ", "\n", "\t"))
    pieces = [f"{name}{blank}:{blank}{value}" for name, value in pairs]
    return ("{" + blank + ("," + blank).join(pieces) + blank + "}").encode()


def other_value(draw):
    """A value that is seldom right."""
    if draw.chance(0.5):
        return draw.pick((None, True, [], {}, 1.0, -1, 10001, 2**32, 2**64, "1", 0, 10**25))
    texts = ("", "-a", "A", "a b", "\u00e4", "!" * 7, "~" * 65, "Crew", "machine", "tab\tkey1")
    return draw.pick((*texts, *EDGES, "key with blank"))


def spoiled_body(draw, members):
    """The body of a command with one thing changed."""
    way, name = draw.number(0, 12), draw.pick(list(members))
    body = spelled(draw, members)
    if way < 4:
        return spelled(draw, {**members, name: other_value(draw)})
    if way == 4:
        return spelled(draw, {own: value for own, value in members.items() if own != name})
    if way == 5:
        return draw.pick(NO_JSON)
    if way == 6:
        return body[:-1] + b',"a":' + draw.pick(VALUES) + b"}"
    if way == 7:
        levels = draw.pick((126, 126, 127, 127, 300))
        return body[:-1] + b',"a":' + b"[" * levels + b"]" * levels + b"}"
    if way == 8:
        return body + draw.pick((b" ", b"x", b"{}", b"\n"))
    if way == 9:
        return re.sub(rb":(\s*)[0-9]+", b":" + draw.pick(NUMBERS), body, count=1)
    if way == 10:
        return body[: draw.number(0, len(body))]
    return draw.other_byte(body)
