"""What modes ship and follow write, beside the model: frames, and a replica that takes them.

It is written from docs/FORMAT.md and docs/RULES.md alone. A primary's folder is opened as an account (tools/stores.py), and what brings a replica from
a position to its end is told in frames. A replica takes frames in any order and answers messages; the message that stops the replication puts what it
holds on its own disk, in the file that the root doesn't name. The folder of a replica is opened without asking whether its entries are legal.
"""

import collections
import copy

import entries
import formats
import model
import sound
import stores

from formats import Damaged

ENTRIES, ROWS, MESSAGE = 1, 2, 3
POSITION, REPLY = 1, 2
FRAME_LIMIT = 100000
FRAME_ENTRIES = 100
LIST_LIMIT = 536870912
# The region of a replica without --region.
REGION = "us-east-1"
READ_ONLY = "replica is read-only"
# What a replica answers beside the message that promotes it.
READS = ("GetSecretValue", "DescribeSecret")

# A frame: its kind, the position, and the bodies; or the bytes of a message.
Frame = collections.namedtuple("Frame", "kind position bodies")


class Bad(Exception):
    """No frame begins at this byte."""


class Cut(Exception):
    """So many bytes stand behind the last whole frame."""


# ---- frames as bytes


def spelled(frame):
    if frame.kind == MESSAGE:
        return bytes([MESSAGE]) + entries.octets(frame.bodies)
    return bytes([frame.kind]) + entries.natural(frame.position) + entries.items(*map(entries.octets, frame.bodies))


def message(data):
    """The frame of a message."""
    return Frame(MESSAGE, None, data)


class Front:
    """The bytes of a stream from a place on, read part by part: what is missing cuts the frame, what is too much spoils it."""

    def __init__(self, stream, at):
        self.stream, self.begin, self.at = stream, at, at

    def take(self, count):
        if len(self.stream) - self.at < count:
            raise Cut(len(self.stream) - self.begin)
        self.at += count
        return self.stream[self.at - count : self.at]

    def number(self, width, most=None):
        found = int.from_bytes(self.take(width), "big")
        if most is not None and found > most:
            raise Bad(self.begin)
        return found

    def octets(self, room):
        """Bytes behind their length, which may be so many together."""
        length = self.number(4)
        if 4 + length > room:
            raise Bad(self.begin)
        return self.take(length)

    def items(self, most):
        room, found = LIST_LIMIT, []
        for _ in range(self.number(4, most)):
            found.append(self.octets(room))
            room -= 4 + len(found[-1])
        return found


def frame_at(stream, at):
    """The frame at a place of a stream, and the place behind it."""
    front = Front(stream, at)
    kind = front.take(1)[0]
    if kind == MESSAGE:
        frame = message(front.octets(4 + LIST_LIMIT))
    elif kind in (ENTRIES, ROWS):
        frame = Frame(kind, front.number(8), front.items(FRAME_ENTRIES if kind == ENTRIES else None))
    else:
        raise Bad(at)
    if not is_spelled(frame):
        raise Bad(at)
    return frame, front.at


def is_spelled(frame):
    """Whether what is whole by its lengths is a frame."""
    try:
        if frame.kind == ENTRIES:
            return all(formats.read_entry(body, 2) is not None for body in frame.bodies)
        if frame.kind == ROWS:
            return formats.read_base(frame.bodies, 2) is not None
        return model.Message(frame.bodies, 0).behind == len(frame.bodies)
    except (formats.NotSpelled, model.Bad, model.Cut):
        return False


# ---- a primary


def held(files, editions=(1, 2)):
    """The format of the journal that counts, its base or None, and the bodies of the entries behind it. Each has to be spelled."""
    data = files[formats.named(files[stores.ROOT])]
    edition, records, _ = formats.records_of(data, editions)
    base, count = formats.base_of(records, edition)
    for _ in formats.entries_behind(records[count:], count, edition):
        pass
    return edition, base, [body for _, body in records[count:]]


def frames_from(base, bodies, position):
    """What brings a replica from a position to the end of these entries behind their base."""
    begin = base.entries if base is not None else 0
    if position < begin:
        yield Frame(ROWS, begin, formats.spelled_base(base, 2))
        position = begin
    while bodies[position - begin :]:
        some = bodies[position - begin :][:FRAME_ENTRIES]
        yield Frame(ENTRIES, position, some)
        position += len(some)


def ship(folder, position=0):
    """The code and the output of mode ship over a folder (tools/stores.py)."""
    code, _ = folder.run("check")
    if code:
        return code, b""
    _, base, bodies = held(folder.files)
    return 0, b"".join(map(spelled, frames_from(base, bodies, position)))


# ---- a replica


class Replica:
    """What a replica holds, as an account that nobody asks, and the three files of its folder."""

    def __init__(self, files=stores.EMPTY, region=REGION, people=b"", clock=model.NOW):
        self.files, self.region, self.clock = list(files), region, clock
        self.people = model.People(people)
        self.account = model.Account(edition=2)
        self.promoted = False
        self.reached = collections.Counter()

    def open(self):
        """Opens the folder as a store: what stands behind the last whole record is cut off, and nothing else is done."""
        number = formats.named(self.files[stores.ROOT])
        if len(self.files[number]) <= formats.SHORT:
            self.files[number] = formats.journal([], 2)
            return
        _, _, gate = formats.records_of(self.files[number])
        self.files[number] = self.files[number][: gate + 1]
        held(self.files)

    def position(self):
        return self.account.count()

    def take(self, frame):
        """What is answered to a frame, in short."""
        if self.promoted:
            return "Promoted"
        return self.take_entries(frame) if frame.kind == ENTRIES else self.take_rows(frame)

    def take_entries(self, frame):
        if frame.position > self.position():
            return "Ahead"
        account = copy.deepcopy(self.account)
        try:
            for body in frame.bodies[self.position() - frame.position :]:
                account.again(formats.read_entry(body, 2))
        except model.Illegal:
            return "Broken"
        self.account = account
        return "At"

    def take_rows(self, frame):
        if frame.position <= self.position():
            return "At"
        base = formats.read_base(frame.bodies, 2)
        if base.entries != frame.position or not sound.is_sound(base):
            return "Broken"
        self.account = stores.account_over(base, 2)
        return "At"

    def reply(self, data):
        """The reply to a message."""
        asked, operation = model.Message(data, 0), None
        try:
            operation = asked.operation()
            if operation not in model.MEMBERS:
                raise model.refusal("unknown operation")
            person = self.people.caller(asked)
            members = model.members_of(operation, asked.body)
            shown = self.answer(person, operation, members)
            self.reached[operation, "accepted"] += 1
            return model.framed("200 OK", shown)
        except model.Refusal as refused:
            self.reached[operation, refused.kind] += 1
            return model.framed("400 Bad Request", {"Message": refused.message, "__type": refused.error})

    def answer(self, person, operation, members):
        if operation not in (*READS, "StopReplicationToReplica"):
            raise model.refusal(READ_ONLY)
        model.test_forms(operation, members)
        # A secret is gone at its deletion date for who asks now; the entries that come may have been made before.
        account = copy.deepcopy(self.account)
        account.clock = self.clock
        account.begin_now()
        secret = account.find(members["SecretId"])
        model.admit(person, operation, secret, members)
        if secret is None or self.region not in secret.regions:
            raise model.refusal("secret not found")
        if operation in READS:
            return model.READS[operation](account.named(operation, members["SecretId"]), members)
        self.promote()
        return {"ARN": secret.arn}

    def promote(self):
        """Puts what is held in the other file, and lets the root name that."""
        self.promoted = True
        new = 1 - formats.named(self.files[stores.ROOT])
        self.files[new] = formats.journal(formats.spelled_base(stores.base_of(self.account), 2), 2)
        self.files[stores.ROOT] = bytes([new]) + self.files[stores.ROOT][1:]

    def output(self, frame):
        """What is written after a frame."""
        if frame.kind == MESSAGE:
            return bytes([REPLY]) + entries.octets(self.reply(frame.bodies))
        self.reached["frame", self.take(frame)] += 1
        return bytes([POSITION]) + entries.natural(self.position())

    def follow(self, stream):
        """The code and the output of mode follow over this input."""
        try:
            self.open()
        except Damaged:
            return 3, b""
        output, at = b"", 0
        for _ in range(FRAME_LIMIT):
            if at == len(stream):
                return 0, output
            try:
                frame, at = frame_at(stream, at)
            except Cut:
                return 10, output
            except Bad:
                return 11, output
            output += self.output(frame)
        return 12, output


def outputs_in(data):
    """The outputs of a run, each as a position or the bytes of a reply."""
    at = 0
    while at < len(data):
        width = 8 if data[at] == POSITION else 4
        number = int.from_bytes(data[at + 1 : at + 1 + width], "big")
        at += 1 + width
        if width == 8:
            yield number
        else:
            at += number
            yield data[at - number : at]
