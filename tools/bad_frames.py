"""Bad input of mode follow, by its names: what stands on standard input, and what has to come of it.

A replica first takes the creation of a secret and its second value. Then comes what is bad. Where the run goes on, the
secret is asked for, and the reply shows that the replica is as it was. The wanted answers are written down here, and the
model (tools/replica.py) has to give them too.
"""

import collections
import struct

import entries
import flawed
import forged
import formats
import replica

from replica import ENTRIES, ROWS, Frame

REGION = "eu-west-1"
# What stands for the reply that shows the secret, for that which promotes, and for that which refuses a change, among
# outputs that are positions else.
SHOWN, PROMOTED, UNCHANGED = "shown", "promoted", "unchanged"
VALUE = b'"SecretString":"two"'
ARN = b'{"ARN":"arn:aws:secretsmanager:us-east-1:000000000000:secret:a-AAAAAA"}'
READ_ONLY = b'{"Message":"replica is read-only","__type":"InvalidRequestException"}'
# When the two entries were made, that come first.
MADE = 1700000000
PERSON = {"caller": "", "drawn": b"", "prunes": False, "by": ""}


class Row(collections.namedtuple("Row", "stream code said outputs")):
    """A stream, the code and what is said of it, and the outputs."""

    def lines(self):
        """The lines on standard error."""
        return [f"secretsd: {self.said}", f"secretsd: status {self.code}"] if self.code else []



def body(act, moment=MADE, edition=2, drawn=b"", **fields):
    return formats.spelled_entry(formats.Entry(**PERSON | {"moment": moment, "drawn": drawn}, act=act, fields=fields), edition)


def nothing(moment=MADE, edition=2):
    """The forced deletion of a secret that isn't there, which is always legal."""
    return body("DeleteSecret", moment, edition, ForceDeleteWithoutRecovery=True, SecretId="x")


CREATED = body(
    "CreateSecret", drawn=bytes(6), AddReplicaRegions=[REGION], ClientRequestToken="1" * 32, Name="a", SecretString="one"
)
PUT = body("PutSecretValue", ClientRequestToken="2" * 32, SecretId="a", SecretString="two")
OTHER = body("CreateSecret", drawn=bytes(6), AddReplicaRegions=[REGION], ClientRequestToken="3" * 32, Name="a", SecretString="other")
ASKED = forged.question("GetSecretValue", SecretId="a")
CLOSING = ASKED.replace(b"\r\n", b"\r\nConnection: close\r\n", 1)
CHANGED = forged.question("PutSecretValue", SecretId="a", SecretString="three")
STOPPED = forged.question("StopReplicationToReplica", SecretId="a")


def spelled(position, *bodies, kind=ENTRIES):
    return replica.spelled(Frame(kind, position, list(bodies)))


def rows(base, position=None):
    return spelled(base.entries if position is None else position, *formats.spelled_base(base, 2), kind=ROWS)


def message(data):
    return replica.spelled(replica.message(data))


FIRST = spelled(0, CREATED, PUT)


def stops(bad, code, said):
    """What ends the run behind the first frame."""
    return Row(FIRST + bad, code, said, [2])


def cut(bad):
    return stops(bad, 10, f"the last {len(bad)} bytes of the input are no whole frame")


def wrong(bad, before=b"", positions=()):
    """Wrong behind frames that are none, after which the replica stands at these positions."""
    at = len(FIRST + before)
    return Row(FIRST + before + bad, 11, f"the frame at byte {at} of the input is wrong", [2, *positions])


def answered(*frames):
    """Frames, each with the position behind it, after which the secret is shown as it was."""
    stream = b"".join(frame for frame, _ in frames)
    return Row(FIRST + stream + message(ASKED), 0, None, [2, *(position for _, position in frames), SHOWN])


def whole_frames():
    secret = flawed.changed(flawed.bare(3, "b"), values=["v"], labels=[("AWSCURRENT", flawed.token(1))])
    return {
        "entries": spelled(2, nothing(), nothing()),
        "rows": rows(flawed.base(secret)),
        "a message": message(ASKED),
    }


def cuts():
    for kind, frame in whole_frames().items():
        for size in range(1, len(frame)):
            yield f"{kind} cut at byte {size}", cut(frame[:size])


def counted(kind, position, count, *lengths):
    """The front of a frame: its kind, its position, a count and lengths."""
    return bytes([kind]) + struct.pack(f">QI{len(lengths)}I", position, count, *lengths)


def lengths():
    limit = replica.LIST_LIMIT
    one = spelled(2, nothing())
    two = counted(ENTRIES, 2, 2) + one[13:]
    rest = limit - 4 - (len(one) - 13)
    return {
        "a count of 100 and no entry": cut(counted(ENTRIES, 2, 100)),
        "a count of 101": wrong(counted(ENTRIES, 2, 101)),
        "a count of 101 and as many entries": wrong(counted(ENTRIES, 2, 101) + one[13:] * 101),
        "the greatest count": wrong(counted(ENTRIES, 2, 2**32 - 1)),
        "the greatest count of rows": cut(counted(ROWS, 7, 2**32 - 1)),
        "a list longer than its bytes": cut(two),
        "an entry as long as may be": cut(counted(ENTRIES, 2, 1, limit - 4)),
        "an entry that is too long": wrong(counted(ENTRIES, 2, 1, limit - 3)),
        "an entry of the greatest length": wrong(counted(ENTRIES, 2, 1, 2**32 - 1)),
        "two entries as long as may be": cut(two + struct.pack(">I", rest)),
        "two entries that are too long": wrong(two + struct.pack(">I", rest + 1)),
        "a row as long as may be": cut(counted(ROWS, 7, 1, limit - 4)),
        "a row that is too long": wrong(counted(ROWS, 7, 1, limit - 3)),
        "a message as long as may be": cut(b"\3" + struct.pack(">I", limit)),
        "a message that is too long": wrong(b"\3" + struct.pack(">I", limit + 1)),
    }


def spellings():
    message_twice, half = message(ASKED * 2), message(ASKED[:-1])
    found = {f"a byte {byte}": wrong(bytes([byte])) for byte in (0, 4, 128, 255)}
    found |= {
        "a byte 0 behind a frame": wrong(b"\0", spelled(2, nothing()), [3]),
        "a byte 4 and a whole frame": wrong(b"\4" + FIRST),
        "two messages in a frame": wrong(message_twice),
        "a message that is cut in a frame": wrong(half),
        "no message in a frame": wrong(message(b"")),
        "the front of a message in a frame": wrong(message(b"GET")),
        "a message with a body that is too long": wrong(message(b"POST / HTTP/1.1\r\nContent-Length: 524289\r\n\r\n")),
        "an entry of format 1": wrong(spelled(2, nothing(edition=1))),
        "an entry of format 1 behind one of format 2": wrong(spelled(2, nothing(), nothing(edition=1))),
        "an entry of format 1 before the position": wrong(spelled(0, nothing(edition=1))),
        "an empty entry": wrong(spelled(2, b"")),
        "an entry without an act": wrong(spelled(2, bytes([2, *bytes(28)]))),
        "an entry with a byte behind it": wrong(spelled(2, nothing() + b"\0")),
        "an entry that is cut": wrong(spelled(2, nothing()[:-1])),
        "rows in a frame of entries": wrong(spelled(2, *formats.spelled_base(flawed.sound()["nothing"], 2))),
        "entries in a frame of rows": wrong(spelled(7, nothing(), kind=ROWS)),
        "no rows": wrong(spelled(7, kind=ROWS)),
    }
    for name, bodies in flawed.spoiled(2).items():
        found[f"rows with {name}"] = wrong(spelled(7, *bodies, kind=ROWS))
    return found


def orders():
    two, three = spelled(0, CREATED, PUT), spelled(2, nothing(), nothing(), nothing())
    base = flawed.base(last=MADE, count=7)
    return {
        "no entries": answered((spelled(0), 2), (spelled(2), 2), (spelled(3), 2)),
        "the same again": answered((two, 2), (two, 2)),
        "a part again and more": answered((spelled(1, PUT, nothing()), 3)),
        "a frame ahead": answered((spelled(3, nothing()), 2), (spelled(2**64 - 1, nothing()), 2)),
        "the later frame first": answered((spelled(5, nothing()), 2), (three, 5), (spelled(5, nothing()), 6)),
        "of an older account": answered((spelled(0, OTHER), 2), (spelled(0, OTHER, OTHER), 2)),
        "of an older account, and longer": answered((spelled(0, OTHER, OTHER, OTHER), 2)),
        "an entry that isn't legal": answered((spelled(2, CREATED), 2), (spelled(2, nothing(), CREATED), 2)),
        "an entry before the last moment": answered((spelled(2, nothing(MADE - 1)), 2)),
        "rows at the position and below": answered((rows(base._replace(entries=2)), 2), (rows(base._replace(entries=1)), 2)),
        "rows of another position": answered((rows(base, 6), 2), (rows(base, 8), 2), (rows(base, 2**64 - 1), 2)),
    }


def messages():
    fresh, base = spelled(2, nothing()), rows(flawed.base(last=MADE, count=7))
    return {
        "a message that closes a connection": answered((message(CLOSING), SHOWN), (fresh, 3)),
        "a change": answered((message(CHANGED), UNCHANGED), (fresh, 3)),
        "frames behind a promotion": answered((message(STOPPED), PROMOTED), (fresh, 2), (base, 2), (FIRST, 2)),
        "a promotion twice": answered((message(STOPPED), PROMOTED), (message(ASKED), SHOWN), (message(STOPPED), PROMOTED)),
    }


def unsound():
    for name, (_, base) in flawed.flawed().items():
        yield f"rows that are not sound: {name}", answered((rows(base), 2))


def table():
    """Each row by its name."""
    return dict(cuts()) | lengths() | spellings() | orders() | messages() | dict(unsound())


def seen(output):
    """The outputs of a run, of which a reply that shows the secret or promotes is told so."""
    return [found if isinstance(found, int) else told(found) for found in replica.outputs_in(output)]


def told(reply):
    ends = {ARN: PROMOTED, READ_ONLY: UNCHANGED}
    return SHOWN if VALUE in reply else next((kind for end, kind in ends.items() if reply.endswith(end)), reply)
