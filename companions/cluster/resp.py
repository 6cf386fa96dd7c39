"""The protocol of Redis (RESP), as far as lists need it: the bytes of a command, and the value that an answer begins with."""


def command(*words):
    data = [it if isinstance(it, bytes) else str(it).encode() for it in words]
    return b"*%d\r\n" % len(data) + b"".join(b"$%d\r\n%s\r\n" % (len(it), it) for it in data)


def value(data, at=0):
    """The value at this place and where it ends; None where it is not there whole. What the server refuses is raised."""
    end = data.find(b"\r\n", at)
    if end < 0:
        return None
    kind, rest, end = data[at : at + 1], data[at + 1 : end], end + 2
    if kind == b"-":
        raise OSError(rest.decode())
    if kind == b"+":
        return rest, end
    if kind == b":":
        return int(rest), end
    if kind == b"$":
        return text(data, end, int(rest))
    return items(data, end, int(rest))


def text(data, at, size):
    if size < 0:
        return None, at
    return (data[at : at + size], at + size + 2) if len(data) >= at + size + 2 else None


def items(data, at, count):
    found = []
    for _ in range(count):
        one = value(data, at)
        if one is None:
            return None
        found.append(one[0])
        at = one[1]
    return (found if count >= 0 else None), at
