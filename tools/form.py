"""The form of journal files, read by a plain reader that says where a file is not of it; docs/FORMAT.md has the form.

`read` gives the file as an object with the members of the form alone, contents in lower case; else it raises Unreadable, with the place: line and column
where the bytes are no JSON, or the way to the member, as `desk[1].ask.txn`, where lists count from 0."""
import json
import re

MOST, MOST_COUNT, MOST_DEPTH, MOST_BYTES = 2**64 - 1, 2**32 - 1, 127, 67_108_864
LIMITS = {"entries": 1_000_000, "files": 1_000, "ops": 64}
# Of each format: the most levels of a tree, and the most bytes of a content.
MOST_LEVELS, MOST_CONTENT = {1: 6, 2: 10}, {1: 1_000, 2: 4_000}


class Unreadable(Exception):
    """What is wrong, and where."""

    def __init__(self, place, why):
        super().__init__(f"{place}: {why}")


# The bytes


def value_of(data):
    """The JSON value of the bytes, as `serde_json` reads it."""
    try:
        text = data.decode()
        value = json.loads(text, parse_int=integer, parse_float=real, parse_constant=constant)
    except UnicodeDecodeError as fault:
        raise Unreadable(place_of(data[: fault.start].decode()), "the bytes are no UTF-8") from None
    except json.JSONDecodeError as fault:
        raise Unreadable(f"line {fault.lineno}, column {fault.colno}", fault.msg) from None
    except RecursionError:
        raise Unreadable("some value", f"it nests more than {MOST_DEPTH} deep") from None
    except ValueError as fault:
        at = text.find(str(fault))
        raise Unreadable(place_of(text[: max(0, at)]), f"{fault} is no number") from None
    look_into(value, "", MOST_DEPTH)
    return value


def place_of(before):
    """Line and column of what follows this text."""
    return f"line {before.count(chr(10)) + 1}, column {len(before) - before.rfind(chr(10))}"


def integer(text):
    """Numbers that are not written as the form wants them are read as floats, which it takes nowhere."""
    return real(text) if text.startswith("-") or len(text) > 20 or int(text) > MOST else int(text)


def real(text):
    if abs(float(text)) == float("inf"):
        raise ValueError(text)
    return float(text)


def constant(text):
    raise ValueError(text)


def look_into(value, place, depth):
    """Refuses lone surrogates, and what nests too deep."""
    if isinstance(value, str) and re.search("[\ud800-\udfff]", value):
        raise Unreadable(place or "the file", "a lone surrogate")
    if isinstance(value, dict | list) and depth == 0:
        raise Unreadable(place, f"it nests more than {MOST_DEPTH} deep")
    if isinstance(value, dict):
        for key, it in value.items():
            look_into(key, place, depth)
            look_into(it, f"{place}.{key}".lstrip("."), depth - 1)
    for at, it in enumerate(value if isinstance(value, list) else []):
        look_into(it, f"{place}[{at}]", depth - 1)


# Readers of values: each takes a value and its place, and returns what is kept of it


def told(value):
    text = json.dumps(value)
    return text if len(text) <= 40 else text[:38] + ".."


def wants(place, wanted, value):
    return Unreadable(place or "the file", f"{wanted} is wanted, and {told(value)} stands there")


def number(low=0, high=MOST):
    def read(value, place):
        if type(value) is not int or not low <= value <= high:
            raise wants(place, f"the number {low}" if low == high else f"a number from {low} to {high}", value)
        return value

    return read


def text(form, wanted):
    def read(value, place):
        if not isinstance(value, str) or not re.fullmatch(form, value):
            raise wants(place, wanted, value)
        return value

    return read


def content(value, place):
    return text(r"([0-9a-fA-F]{2})*", "a text of hexadecimal digits, two for each byte")(value, place).lower()


def look_at_contents(value, place, most):
    """Refuses contents of more bytes."""
    if isinstance(value, dict) and len(value.get("content", "")) > 2 * most:
        raise Unreadable(f"{place}.content", f"a content has at most {most} bytes, and this one {len(value['content']) // 2}")
    for key, it in value.items() if isinstance(value, dict) else ():
        look_at_contents(it, f"{place}.{key}".lstrip("."), most)
    for at, it in enumerate(value if isinstance(value, list) else []):
        look_at_contents(it, f"{place}[{at}]", most)


def truth(value, place):
    if not isinstance(value, bool):
        raise wants(place, "true or false", value)
    return value


def items(reads, most=None):
    def read(value, place):
        if not isinstance(value, list):
            raise wants(place, "a list", value)
        if most is not None and len(value) > most:
            raise Unreadable(place, f"at most {most} entries are taken, and {len(value)} stand there")
        return [reads(it, f"{place}[{at}]") for at, it in enumerate(value)]

    return read


def members(value, place, forms):
    """An object's members of these forms, each read."""
    if not isinstance(value, dict):
        raise wants(place, "an object", value)
    for key in forms:
        if key not in value:
            raise Unreadable(place or "the file", f"the member `{key}` is missing")
    return {key: reads(value[key], f"{place}.{key}".lstrip(".")) for key, reads in forms.items()}


def record(**forms):
    return lambda value, place: members(value, place, forms)


def tagged(kinds, key="is"):
    """An object whose member `is` says which others it has."""

    def read(value, place):
        if not isinstance(value, dict) or key not in value:
            return members(value, place, {key: None})
        kind = value[key]
        if type(kind) not in (str, int) or kind not in kinds:
            raise wants(f"{place}.{key}", f"one of {', '.join(map(str, kinds))}", kind)
        more = kinds[kind]
        return {key: kind} | (more(value, place) if callable(more) else members(value, place, more))

    return read


# The form


NAME = text(r"[a-z][a-z0-9._-]{0,31}", "a name of 1 to 32 of a-z 0-9 . _ -, the first a letter,")
MODE, KIND, PURPOSE = text("shared|exclusive", "shared or exclusive"), text("read|write", "read or write"), text("read|write", "read or write")
WRITES = items(record(content=content, file=NAME, version=number()))
HELD = items(record(file=NAME, mode=MODE, since=number()))
AT = {"number": number(), "server": number()}
VERDICT = tagged({"abort": {}, "commit": {"votes": items(record(**AT))}})
GRANTS = items(record(**AT, content=content, mode=MODE, version=number()))
OPS = items(record(content=content, file=NAME, grants=GRANTS, kind=KIND, version=number()))
VOTES = items(record(**AT, held=HELD, writes=WRITES))
WORK = {
    "lock": {"file": NAME, "mode": MODE, "txn": number()},
    "prepare": {"txn": number(), "writes": WRITES},
    "decide": {"cite": number(), "txn": number(), "verdict": VERDICT},
    "release": {"txn": number()},
    "peek": {"file": NAME},
    "refresh": {"content": content, "file": NAME, "from": record(**AT), "version": number()},
}
COPY = {"content": content, "version": number()}


def refused(codes):
    return tagged({code: {} for code in codes[0]} | codes[1], "code")


SERVER = (
    tagged(WORK | {"crash": {}, "return": {}, "crashin": {"after": number(0, MOST_COUNT), "ask": tagged(WORK)}}),
    tagged({"granted": COPY, "copy": COPY, "yes": {"held": HELD, "writes": WRITES}}
           | {it: {} for it in ("installed", "discarded", "released", "refreshed", "crashed", "returned")}
           | {"refused": refused(((11, 12, 13, 15, 17, 18, 19), {14: {"by": number()}, 16: {"file": NAME}}))}),
)  # fmt: skip
DESK = (
    tagged({"begin": {}, "commit": {"ops": OPS, "txn": number(), "votes": VOTES}, "resolve": {"txn": number()}}),
    tagged({"txn": {"txn": number()}, "committed": {"serial": number()}, "verdict": {"verdict": VERDICT},
            "refused": refused(((21, 24, 25), {22: {"verdict": VERDICT}, 23: {"rule": number(1, 6)}}))}),
)  # fmt: skip
VIEW_ASKS = {
    1: {"setcost": {"cost": number(), "server": number()}, "choose": {}},
    2: {"setcost": {"read": number(), "server": number(), "write": number()}, "choose": {"purpose": PURPOSE}},
}


def is_quorum(levels, servers, top=1):
    """Whether the set is a member of the coterie of the tree under `top`."""
    left, right = 2 * top, 2 * top + 1
    if left >= 2**levels:
        return servers == {top}
    if top in servers:
        return any(is_quorum(levels, servers - {top}, side) for side in (left, right))
    sides = {side: {it for it in servers if is_under(side, it)} for side in (left, right)}
    return sides[left] | sides[right] == servers and all(is_quorum(levels, of, side) for side, of in sides.items())


def is_under(top, server):
    while server > top:
        server //= 2
    return server == top


def quorum(levels):
    def read(value, place):
        servers = items(number(1, 2**levels - 1))(value, place)
        if servers != sorted(set(servers)) or not is_quorum(levels, set(servers)):
            raise Unreadable(place, f"{told(value)} is no quorum of {levels} levels in ascending order")
        return servers

    return read


def view(levels, form):
    asks = VIEW_ASKS[form] | {"mark": {"server": number(), "up": truth}}
    chosen = {"cost": number(), "servers": quorum(levels)}
    codes = refused(((31, 32), {33: {"servers": quorum(levels)}}))
    return tagged(asks), tagged({"costset": {}, "marked": {}, "chosen": chosen, "refused": codes})


def read(data, formats=(1, 2)):
    """The journal file of these bytes."""
    if len(data) > MOST_BYTES:
        raise Unreadable("the file", f"it has more than {MOST_BYTES} bytes")
    value = value_of(data)
    limits = record(**{key: number(1, most) for key, most in LIMITS.items()})
    top = members(value, "", {"format": number(min(formats), max(formats)), "levels": number(), "limits": limits})
    number(1, MOST_LEVELS[top["format"]])(top["levels"], "levels")
    levels, most = top["levels"], top["limits"]["entries"]
    journal = lambda both: items(record(ask=both[0], reply=both[1]), most)
    if len(items(lambda it, _: it)(value.get("servers"), "servers")) != 2**levels - 1:
        raise Unreadable("servers", f"{levels} levels have {2**levels - 1} servers, and {len(value['servers'])} lists stand there")
    parts = {"desk": journal(DESK), "servers": items(journal(SERVER)), "view": journal(view(levels, top["format"]))}
    file = top | members(value, "", parts)
    look_at_contents(file, "", MOST_CONTENT[top["format"]])
    return file
