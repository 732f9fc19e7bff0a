"""Requests and replies as bytes, and the short forms in which the tables of tools/rows and tools/streams write them."""

import re

REASONS = {200: "OK", 400: "Bad Request", 413: "Content Too Large", 500: "Internal Server Error",
           503: "Service Unavailable"}
KIND = "application/x-amz-json-1.1"


def unfold(text):
    """The text with each `<<part*count>>` as so many parts. `#` is the number of a part from 0, or from 5 in `*3+5>>`."""
    def copies(found):
        first, count = int(found[3] or 0), int(found[2])
        return "".join(found[1].replace("#", str(number)) for number in range(first, first + count))

    return re.sub(r"<<(.+?)\*(\d+)(?:\+(\d+))?>>", copies, text)


def escaped(text):
    """The bytes that a text in Python's escapes says."""
    return unfold(text).encode().decode("unicode_escape").encode("latin-1")


def request(operation, body, fields):
    """A request: an operation and the bytes of its body, with further fields of the head."""
    lines = ["POST / HTTP/1.1", f"X-Amz-Target: secretsmanager.{operation}", *fields, f"Content-Length: {len(body)}"]
    return "\r\n".join([*lines, "", ""]).encode() + body


def reply(status, body):
    """A reply of this status with this text."""
    size = len(body.encode())
    head = [f"HTTP/1.1 {status} {REASONS[status]}", f"Content-Type: {KIND}", f"Content-Length: {size}", "", body]
    return "\r\n".join(head).encode()
