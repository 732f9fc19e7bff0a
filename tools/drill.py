"""A second definition of mode drill, to compare the program with it: ChaCha's words, the messages that a number makes of
them, and what is said of their replies. Written from docs/RULES.md alone, like tools/model.py, whose accounts answer."""

import itertools
import json
import struct

import model

MESSAGES = 10000


def quarter_round(state, a, b, c, d):
    for to, by, turned, shift in ((a, b, d, 16), (c, d, b, 12), (a, b, d, 8), (c, d, b, 7)):
        state[to] = (state[to] + state[by]) % 2**32
        mixed = state[turned] ^ state[to]
        state[turned] = (mixed << shift | mixed >> 32 - shift) % 2**32


def block(rounds, key, counter, nonce):
    """The 16 words of a block of ChaCha, whose key is 32 bytes, and whose counter and nonce have 64 bits each."""
    start = struct.unpack("<16I", b"expand 32-byte k" + key + struct.pack("<QQ", counter, nonce))
    state = list(start)
    for _ in range(rounds // 2):
        for column in range(4):
            quarter_round(state, column, 4 + column, 8 + column, 12 + column)
        for column in range(4):
            quarter_round(state, column, 4 + (column + 1) % 4, 8 + (column + 2) % 4, 12 + (column + 3) % 4)
    return [(word + begun) % 2**32 for word, begun in zip(state, start)]


def words_of(number):
    """The words of a number, one after the other."""
    key = struct.pack("<Q24x", number)
    return itertools.chain.from_iterable(block(8, key, counter, 0) for counter in itertools.count())


def asked(place, word):
    """The operation of the message at a place, and its members."""
    given = {"ClientRequestToken": f"drill-token-{place:020}", "SecretString": f"{word:08x}"}
    if place < 2000:
        return "CreateSecret", {"Name": f"d/{place}", **given}
    if place < 8000:
        return "PutSecretValue", {"SecretId": f"d/{2 * ((place - 2000) % 1000) + word % 2}", **given}
    return "GetSecretValue", {"SecretId": f"d/{word % 2000}"}


def messages_of(number):
    for place, word in enumerate(itertools.islice(words_of(number), MESSAGES)):
        operation, members = asked(place, word)
        body = json.dumps(members, separators=(",", ":"), sort_keys=True).encode()
        head = f"POST / HTTP/1.1\r\nX-Amz-Target: secretsmanager.{operation}\r\nContent-Length: {len(body)}\r\n\r\n"
        yield model.Message(head.encode() + body, 0)


def drill(account, number):
    """What mode drill writes of an account, which answers the messages of a number."""
    refused, last = 0, "-"
    for message in messages_of(number):
        head, body = model.reply(account, message).split(b"\r\n\r\n", 1)
        model.take_turns(account)
        accepted = head.startswith(b"HTTP/1.1 200 ")
        refused += not accepted
        last = json.loads(body or b"{}").get("SecretString", "-") if accepted else "-"
    totals = model.summary(account).split(b"\n")[0].decode()
    return f"messages {MESSAGES} refused {refused}\n{totals}\nlast {last}\n".encode()
