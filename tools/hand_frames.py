"""Frames written by hand: what mode ship writes of a journal from each position, and what a replica makes of frames.

The journals and the frames are told by letters (tools/hand_journals.py). What has to come is written down here from
docs/FORMAT.md and docs/RULES.md alone, and the model (tools/replica.py) has to give it too.
"""

import collections
import json

import forged
import formats
import hand_journals
import replica

from hand_journals import body_of, record
from replica import ENTRIES, MESSAGE, ROWS, Frame

GREATEST = 2**64 - 1
# When the first of the numbered entries was made.
BEGUN = 1700000009

# How many entries stand before the base, how many there are in all, the replica's position, and what is shipped: each
# frame with its position, and how many entries it has. Seven entries before the base leave one secret.
SHIPPED = [
    (0, 0, 0, ""),
    (0, 3, 0, "entries 0 3"),
    (0, 3, 1, "entries 1 2"),
    (0, 3, 3, ""),
    (0, 3, 4, ""),
    (0, 3, GREATEST, ""),
    (0, 100, 0, "entries 0 100"),
    (0, 101, 0, "entries 0 100, entries 100 1"),
    (0, 250, 0, "entries 0 100, entries 100 100, entries 200 50"),
    (0, 250, 99, "entries 99 100, entries 199 51"),
    (0, 250, 249, "entries 249 1"),
    (7, 7, 0, "rows 7 0"),
    (7, 7, 6, "rows 7 0"),
    (7, 7, 7, ""),
    (7, 10, 0, "rows 7 0, entries 7 3"),
    (7, 10, 7, "entries 7 3"),
    (7, 10, 8, "entries 8 2"),
    (7, 10, 10, ""),
    (7, 108, 3, "rows 7 0, entries 7 100, entries 107 1"),
]

# Frames with commas between them, and the replica's position behind each. A frame that lies ahead, and one with an entry
# that isn't legal or with rows that aren't sound, leaves it where it was.
TAKEN = {
    "entries twice, and more": ("entries 0 dd, entries 0 dd, entries 1 dd", [2, 2, 3]),
    "a frame ahead": ("entries 0 ddd, entries 5 d", [3, 3]),
    "a frame ahead without entries": ("entries 0 ddd, entries 5", [3, 3]),
    "one by one": ("entries 0, entries 0 d, entries 1 d, entries 2 d", [0, 1, 2, 3]),
    "a part again": ("entries 0 ddddd, entries 2 d, entries 2 dddd", [5, 5, 6]),
    "an illegal entry among others": ("entries 0 ded", [0]),
    "an illegal entry": ("entries 0 e", [0]),
    "illegal entries that it has, and others": ("entries 0 ddd, entries 1 eeed, entries 1 eeded", [3, 3, 3]),
    "an entry before another": ("entries 0 dy", [0]),
    "an entry before the last moment": ("entries 0 d, entries 1 y", [1, 1]),
    "rows without secrets twice": ("rows 5 s, rows 5 s, entries 5 d, rows 5 s", [5, 5, 6, 6]),
    "rows of a secret, and what is before them": ("rows 7 uq, entries 7 e, entries 0 e, entries 7 dd", [7, 8, 8, 9]),
    "rows below the position": ("entries 0 dddddddd, rows 7 uq", [8, 8]),
    "rows past the position": ("entries 0 dd, rows 7 uq", [2, 7]),
    "rows of another position": ("rows 6 s, rows 8 uq", [0, 0]),
    "rows that are not sound": ("rows 7 wq, rows 7 uf", [0, 0]),
    "as many entries as there may be": (
        f"rows {GREATEST} m, entries {GREATEST} d, entries {GREATEST - 1} dd", [GREATEST, GREATEST, GREATEST]
    ),
    "a hundred entries": (f"entries 0 {'d' * 100}", [100]),
    "a hundred entries and one, of which it has one": (f"entries 0 d, entries 0 {'d' * 100}, entries 100 d", [1, 100, 101]),
}

# The rows of a secret `b`, in no region and in the replica's, after seven entries.
ABROAD, HERE = "rows 7 uq", "rows 7 un"
# People, of whom one has the account and the other is a guest.
PEOPLE = b"ADA full arn:aws:iam::000000000000:user/ada\nGIL guest arn:aws:iam::000000000000:user/gil\n"
READ_ONLY, NO_SECRET, NOBODY, ODD_ID = (
    "replica is read-only", "secret not found", "no statement allows", "SecretId is not in its form"
)
# Who asks, the operation, the SecretId, and what is answered: a refusal, or that the secret is shown.
ASKED = {
    ABROAD: [
        ("ADA", "GetSecretValue", "b", NO_SECRET),
        ("ADA", "DescribeSecret", "b", NO_SECRET),
        ("ADA", "GetSecretValue", "x", NO_SECRET),
        ("ADA", "PutSecretValue", "b", READ_ONLY),
        ("ADA", "PutSecretValue", "", READ_ONLY),
        ("GIL", "PutSecretValue", "b", READ_ONLY),
        ("GIL", "GetSecretValue", "b", NOBODY),
        ("GIL", "GetSecretValue", "", ODD_ID),
        ("ADA", "DescribeSecret", "", ODD_ID),
        # A secret of another region isn't promoted either.
        ("GIL", "StopReplicationToReplica", "b", NOBODY),
        ("ADA", "StopReplicationToReplica", "b", NO_SECRET),
        ("ADA", "StopReplicationToReplica", "x", NO_SECRET),
    ],
    HERE: [
        ("ADA", "DescribeSecret", "b", "b"),
        ("ADA", "DescribeSecret", "x", NO_SECRET),
        ("GIL", "DescribeSecret", "b", NOBODY),
        ("ADA", "PutSecretValue", "b", READ_ONLY),
        ("GIL", "StopReplicationToReplica", "b", NOBODY),
    ],
}

# The body of a CreateSecret of `a` in us-east-1 with the value `one`, of the value `two`, of the end of its region, and
# of its forced deletion.
HISTORY = {
    "c": "02000000006553f109000000000000000000000006000102030405010000000100000009"
    "75732d656173742d31010000002431313131313131312d313131312d343131312d383131312d313131313131313131313131"
    "000000000001610001000000036f6e6500",
    "p": "02000000006553f10900000000000000000000000002010000002432323232323232322d323232322d343232322d383232322d"
    "323232323232323232323232000000000161010000000374776f00",
    "r": "02000000006553f10900000000000000000000000010000000010000000975732d656173742d310000000161",
    "x": "02000000006553f1090000000000000000000000000401000000000161",
    "d": hand_journals.LETTERS["d"],
}
# The letters of a journal's entries, and how many `d` follow them: what a replica took first. Then what its journal has
# behind these, where the replica stands then, and the values of `a` that the primary and the replica show.
FOLLOWED = [
    ("", 0, "", 0, None, None),
    ("", 0, "c", 1, "one", "one"),
    ("c", 0, "", 1, "one", "one"),
    ("c", 0, "p", 2, "two", "two"),
    ("cp", 0, "x", 3, None, None),
    ("cp", 0, "r", 3, "two", None),
    ("c", 250, "p", 252, "two", "two"),
    ("c", 1000, "", 1001, "one", "one"),
    ("c", 1000, "p", 1002, "two", "two"),
    ("c", 1000, "r", 1002, "one", None),
]

# The order in which the three frames of 250 entries come, and where a replica stands then.
ORDERS = [
    ("", 0),
    ("012", 250),
    ("00112210", 250),
    ("12", 0),
    ("02", 100),
    ("0201", 200),
    ("210", 100),
    ("210210210", 250),
]


class Row(collections.namedtuple("Row", "stream outputs people", defaults=[b""])):
    """A stream to a replica in us-east-1, and what comes: positions and what replies say."""


def bodies_of(letters):
    return [body_of(letter) for letter in letters]


def frame_of(words):
    """The bytes of a frame: its kind, its position, and its bodies' letters."""
    kind, at, *letters = words.split(" ")
    return replica.spelled(Frame(ROWS if kind == "rows" else ENTRIES, int(at), bodies_of("".join(letters))))


def numbered(number):
    """The entry of this number: as `d`, made so many seconds after the first."""
    return bytes.fromhex(f"02{BEGUN + number:016x}00000000000000000000000004010000000001") + b"x"


def journal_of(before, count):
    """A journal of so many entries, each of which is numbered, so many of them before its base."""
    rows = bodies_of("uq") if before else []
    return b"SMJRNL02" + b"".join(map(record, rows + [numbered(number) for number in range(before, count)])) + b"\0"


def told_frame(told):
    """The bytes of a shipped frame that is told so."""
    kind, at, count = told.split(" ")
    entries = [numbered(number) for number in range(int(at), int(at) + int(count))]
    return replica.spelled(Frame(*((ROWS, int(at), bodies_of("uq")) if kind == "rows" else (ENTRIES, int(at), entries))))


def shipped():
    """The name, the files and the position of each, and the frames."""
    for before, count, position, told in SHIPPED:
        frames = b"".join(map(told_frame, told.split(", "))) if told else b""
        yield f"{count} entries from {position} on, {before} before the base", folder(journal_of(before, count)), position, frames


def folder(data):
    return data, b"", b""


def question(key, operation, secret):
    """The message of a person about a secret."""
    members = {"SecretId": secret} | ({"SecretString": "v"} if operation == "PutSecretValue" else {})
    return forged.question(operation, **members).replace(b"Credential=ADA/", f"Credential={key}/".encode())


def message(data):
    return replica.spelled(replica.message(data))


def told(reply):
    """What a reply says: its message, its value, or its name."""
    body = json.loads(reply.partition(b"\r\n\r\n")[2])
    return next((body[name] for name in ("Message", "SecretString", "Name") if name in body), "promoted")


def outputs(data):
    """What a run wrote: positions, and what replies say."""
    return [found if isinstance(found, int) else told(found) for found in replica.outputs_in(data)]


def asked():
    """What people are answered of a secret that is in the replica's region, or not. It isn't promoted then."""
    for rows, questions in ASKED.items():
        stream = frame_of(rows) + b"".join(message(question(*words)) for *words, _ in questions)
        replies = [answer for *_, answer in questions]
        yield f"questions behind {rows}", Row(stream + frame_of("entries 7 d"), [7, *replies, 8], PEOPLE)


def promoted():
    """A promotion, and another one. It takes nothing then."""
    stop = message(question("ADA", "StopReplicationToReplica", "b"))
    stream = frame_of(HERE) + stop * 2 + frame_of("entries 7 d") + frame_of("rows 7 uq")
    return Row(stream, [7, "promoted", "promoted", 7, 7])


def mixed():
    """Rows, a message that names no operation, and an entry that isn't legal."""
    bad = message(b"POST / HTTP/1.1\r\nContent-Length: 2\r\n\r\n{}")
    return Row(frame_of("rows 5 s") + bad + frame_of("entries 5 c"), [5, "unknown operation", 5])


def table():
    """What a replica makes of each stream, by its name."""
    rows = {name: Row(b"".join(map(frame_of, frames.split(", "))), positions) for name, (frames, positions) in TAKEN.items()}
    return rows | dict(asked()) | {"a promotion twice": promoted(), "rows, a message and an entry": mixed()}


# ---- histories that go on


def journal_with(letters, count, behind):
    """The files of a folder with these entries, so many `d` and these behind them."""
    bodies = [bytes.fromhex(HISTORY[letter]) for letter in letters + "d" * count + behind]
    return folder(formats.journal(bodies, 2))


def frames_in(data):
    """The bytes of each frame of a stream."""
    at, frames = 0, []
    while at < len(data):
        begin = at
        _, at = replica.frame_at(data, at)
        frames.append(data[begin:at])
    return frames


def end_of(told):
    """Where a replica stands behind outputs, and what it answers then, if it was asked."""
    positions = [0] + [output for output in told if isinstance(output, int)]
    return [positions[-1]] + [output for output in told[-1:] if not isinstance(output, int)]


def followed(ship):
    """A stream for each history, and what it ends with, where `ship` gives the frames of a folder from a position on."""
    for front, count, behind, position, _, value in FOLLOWED:
        stream = ship(journal_with(front, count, ""), 0) + ship(journal_with(front, count, behind), len(front) + count)
        name = f"{front or 'nothing'} and {count} entries, and then {behind or 'nothing'}"
        yield name, stream + message(question("ADA", "GetSecretValue", "a")), [position, value or NO_SECRET]


def ordered(ship):
    """The same for each order of frames, also where what is missing is shipped behind them."""
    files = folder(journal_of(0, 250))
    frames = frames_in(ship(files, 0))
    for places, position in ORDERS:
        stream = b"".join(frames[int(place)] for place in places)
        yield f"the frames {places or 'that are lost'}", stream, [position]
        yield f"the frames {places or 'that are lost'}, and what is new", stream + ship(files, position), [250]


def shown():
    """A history's files, the question for the value of `a`, and what a primary answers."""
    for front, count, behind, _, value, _ in FOLLOWED:
        name = f"{front or 'nothing'}, {count} entries and {behind or 'nothing'} on a primary"
        yield name, journal_with(front, count, behind), question("ADA", "GetSecretValue", "a"), value or NO_SECRET
