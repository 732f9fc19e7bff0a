"""The bytes of entries and of a journal's file, made from the formats alone."""

MOMENT = 1700000000


def number(value):
    return value.to_bytes(8, "big", signed=True)


def natural(value):
    return value.to_bytes(8, "big")


def text(value):
    return octets(value.encode())


def octets(value):
    return len(value).to_bytes(4, "big") + value


def truth(value):
    return b"\1" if value else b"\0"


def option(thing=None):
    return b"\0" if thing is None else b"\1" + thing


def text_option(value):
    return option(None if value is None else text(value))


def items(*things):
    return len(things).to_bytes(4, "big") + b"".join(things)


def tag(key, value):
    return text(key) + text(value)


def entry(act, *fields, caller="", drawn=b"", moment=MOMENT):
    return number(moment) + text(caller) + octets(drawn) + bytes([act]) + b"".join(fields)


def journal(bodies, header=b"SMJRNL01"):
    return header + b"".join(b"\1" + octets(body) for body in bodies) + b"\0"
