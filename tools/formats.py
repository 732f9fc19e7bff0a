"""The formats of a folder's files, from docs/FORMAT.md alone: entries, rows and records, read and spelled.

A field has a kind, which says how its values are read from a body, spelled again, and shown as JSON. The tables below
say which fields an act, a secret or a version has: a name and a kind, with `?` where the field need not be there, and
with a 2 behind it where only the second format has it. What is not there is None, and in the first format no regions
are the empty list.
"""

import collections
import itertools
import os
import re

import entries

HEADERS = {b"SMJRNL01": 1, b"SMJRNL02": 2}
# What a file of at most so many bytes holds is nothing: a crash may leave it of one that was being made.
SHORT = 9
BODY_LIMIT = 1048576
LAST_MOMENT = 200000000000
# The bytes that the bodies of a snapshot begin with.
START, ROW, VERSION = 0xF1, 0xF2, 0xF3
# The bit of an act's number in an entry that drops versions.
PRUNES = 128
ARN = re.compile(r"arn:aws:secretsmanager:[a-z0-9-]{1,32}:[0-9]{12}:secret:[A-Za-z0-9/_+=.@-]{1,519}")
NAME = re.compile(r"[A-Za-z0-9/_+=.@-]{1,512}")
TOKEN = re.compile(r"[!-~]{32,64}")
LABEL = re.compile(r".{1,256}", re.DOTALL)
STAGES = ("createSecret", "setSecret", "testSecret", "finishSecret")
# How an answer that is no value is spelled, and how it is shown.
ANSWERS = {True: 2, False: 3, None: 4}
SHOWN_ANSWERS = {True: "Yes", False: "No", None: "Failed"}
# The acts, by their number in a journal from 1 on, and their fields. The last two are of the second format.
ACTS = {
    "CreateSecret": "AddReplicaRegions texts 2, ClientRequestToken text?, Description text?, KmsKeyId text?, Name text,"
    " SecretBinary bytes?, SecretString text?, Tags tags?",
    "PutSecretValue": "ClientRequestToken text?, SecretBinary bytes?, SecretId text, SecretString text?,"
    " VersionStages texts?",
    "UpdateSecret": "ClientRequestToken text?, Description text?, KmsKeyId text?, SecretBinary bytes?, SecretId text,"
    " SecretString text?",
    "DeleteSecret": "ForceDeleteWithoutRecovery truth, RecoveryWindowInDays integer?, SecretId text",
    "RestoreSecret": "SecretId text",
    "UpdateSecretVersionStage": "MoveToVersionId text?, RemoveFromVersionId text?, SecretId text, VersionStage text",
    "TagResource": "SecretId text, Tags tags",
    "UntagResource": "SecretId text, TagKeys texts",
    "PutResourcePolicy": "BlockPublicPolicy truth, ResourcePolicy text, SecretId text",
    "DeleteResourcePolicy": "SecretId text",
    "RotateSecret": "ClientRequestToken text?, RotateImmediately truth, RotationLambdaARN text?, RotationRules rules?,"
    " SecretId text",
    "CancelRotateSecret": "SecretId text",
    "Begun": "ARN arn",
    "Reported": "ARN arn, Token token, Stage stage, Attempt attempt, Answer answer",
    "ReplicateSecretToRegions": "Regions texts, SecretId text",
    "RemoveRegionsFromReplication": "Regions texts, SecretId text",
}
OF_THE_SECOND = {"ReplicateSecretToRegions", "RemoveRegionsFromReplication"}
# What nobody asks for, and how many drawn bytes it has.
UNASKED = {"Begun": 16, "Reported": 0}

# What an entry says: when it was made, the key of who asked, the drawn bytes, whether it drops versions, its act and
# the act's fields that are there, and the ARN of who asked.
Entry = collections.namedtuple("Entry", "moment caller drawn prunes act fields by", defaults=[""])
Rules = collections.namedtuple("Rules", "days schedule", defaults=(None, None))
Job = collections.namedtuple("Job", "token stage attempt retry_at tested", defaults=[None])
Start = collections.namedtuple("Start", "next last entries secrets")
Row = collections.namedtuple(
    "Row",
    "serial arn name created changed description kms tags versions next_version labels deletion enabled rotator days"
    " schedule next_date last_date policy regions job",
)
Version = collections.namedtuple("Version", "id serial made value rotated by_rotation")
# A secret and its versions in order; and rows that entries are counted from: the serial of the next secret, the last
# moment, how many entries were made before, and the secrets in order.
Kept = collections.namedtuple("Kept", "row versions")
Base = collections.namedtuple("Base", "next last entries secrets")
# What is told from each other: no base, and the base of no rows.
NOTHING = Base(0, 0, 0, [])


class NotSpelled(Exception):
    """The place of the first field that is not spelled."""


class Body:
    """The bytes of one thing in a format, read field by field."""

    def __init__(self, data, edition):
        self.data, self.edition, self.place = data, edition, 0

    def take(self, count, field):
        if len(self.data) - self.place < count:
            raise NotSpelled(field)
        piece = self.data[self.place : self.place + count]
        self.place += count
        return piece

    def integer(self):
        return int.from_bytes(self.take(8, self.place), "big", signed=True)

    def number(self, most=2**64 - 1):
        field = self.place
        found = int.from_bytes(self.take(8, field), "big")
        if found > most:
            raise NotSpelled(field)
        return found

    def count(self, field):
        return int.from_bytes(self.take(4, field), "big")

    def octets(self):
        field = self.place
        return self.take(self.count(field), field)

    def text(self, form=None):
        field = self.place
        try:
            found = self.octets().decode("utf-8")
        except UnicodeDecodeError:
            raise NotSpelled(field) from None
        if form and not form.fullmatch(found):
            raise NotSpelled(field)
        return found

    def octet(self):
        return self.take(1, self.place)[0]

    def byte(self, *known):
        field = self.place
        found = self.octet()
        if found not in known:
            raise NotSpelled(field)
        return found

    def value(self):
        return self.text() if self.byte(1, 2) == 1 else self.octets()

    def answer(self):
        kind = self.byte(1, *ANSWERS.values())
        return self.value() if kind == 1 else next(answer for answer, number in ANSWERS.items() if number == kind)

    def end(self):
        if self.place < len(self.data):
            raise NotSpelled(self.place)


# ---- kinds of fields


class Kind:
    """How a value is read from a body, and how it is spelled and shown in a format. Some have fields."""

    def __init__(self, read, spell, show=None, fields=()):
        self.read, self.spell, self.show = read, spell, show or (lambda value, edition: value)
        self.fields = fields


def plain(read, spell, show=None):
    """A kind that is the same in both formats."""
    return Kind(read, lambda value, edition: spell(value), show and (lambda value, edition: show(value)))


def spelled_value(value):
    return b"\1" + entries.text(value) if isinstance(value, str) else b"\2" + entries.octets(value)


def shown_value(value):
    return {"SecretString": value} if isinstance(value, str) else {"SecretBinary": value.hex()}


def is_value(answer):
    return isinstance(answer, (str, bytes))


def spelled_answer(answer):
    return b"\1" + spelled_value(answer) if is_value(answer) else bytes([ANSWERS[answer]])


def shown_answer(answer):
    return shown_value(answer) if is_value(answer) else SHOWN_ANSWERS[answer]


def small(*known):
    """A byte that is one of these, or any."""
    return plain(lambda body: body.byte(*known) if known else body.octet(), lambda number: bytes([number]))


def list_of(kind):
    return Kind(
        lambda body: [kind.read(body) for _ in range(body.count(body.place))],
        lambda values, edition: entries.items(*(kind.spell(value, edition) for value in values)),
        lambda values, edition: [kind.show(value, edition) for value in values],
    )


class Field:
    """A field of an act or of a row, from its words in a table."""

    def __init__(self, words):
        self.name, kind, *since = words.split(" ")
        self.kind_name, self.is_optional, self.is_second = kind.rstrip("?"), kind.endswith("?"), bool(since)
        self.kind = KINDS[self.kind_name]
        self.absent = [] if self.kind_name == "texts" and not self.is_optional else None

    def is_in(self, edition):
        return edition == 2 or not self.is_second

    def read(self, body):
        """The value as a list of one, or of none where it is not there."""
        if not self.is_in(body.edition):
            return []
        return [self.kind.read(body)] if not self.is_optional or body.byte(0, 1) else []

    def spell(self, found, edition):
        """The bytes of a value in a list of one, or of none."""
        if not self.is_in(edition):
            return b""
        spelled = [self.kind.spell(value, edition) for value in found]
        if self.is_optional:
            return entries.option(*spelled)
        return spelled[0] if found else self.kind.spell(self.absent, edition)

    def show(self, found, edition):
        """What a value is as JSON, as a list of one pair, or of none where the format has no such field."""
        if not self.is_in(edition):
            return []
        return [(self.name, self.kind.show(found[0], edition) if found else self.absent)]


def fields_in(table):
    return [Field(words) for words in table.split(", ")]


def record(make, table, show=None):
    """A kind of tuples whose parts are the fields of a table, in this order; what is not there is None."""
    fields = fields_in(table)

    def parts(thing):
        return zip(fields, ([] if part is None else [part] for part in thing))

    def read(body):
        return make((field.read(body) or [field.absent])[0] for field in fields)

    def spell(thing, edition):
        return b"".join(field.spell(part, edition) for field, part in parts(thing))

    def shown(thing, edition):
        return dict(pair for field, part in parts(thing) for pair in field.show(part, edition))

    return Kind(read, spell, show or shown, fields)


def shown_rules(rules, edition):
    shown = {"AutomaticallyAfterDays": rules.days}
    return shown if edition == 1 else shown | {"ScheduleExpression": rules.schedule}


KINDS = {
    "answer": plain(Body.answer, spelled_answer, shown_answer),
    "arn": plain(lambda body: body.text(ARN), entries.text),
    "attempt": small(1, 2, 3, 4, 5),
    "bytes": plain(Body.octets, entries.octets, bytes.hex),
    "days": plain(lambda body: body.number(2**32 - 1), entries.natural),
    "integer": plain(Body.integer, entries.number),
    "label": plain(lambda body: body.text(LABEL), entries.text),
    "moment": plain(lambda body: body.number(LAST_MOMENT), entries.natural),
    "name": plain(lambda body: body.text(NAME), entries.text),
    "number": plain(Body.number, entries.natural),
    "octet": small(),
    "stage": plain(
        lambda body: STAGES[body.byte(1, 2, 3, 4) - 1],
        lambda stage: bytes([STAGES.index(stage) + 1]),
        lambda stage: STAGES.index(stage) + 1,
    ),
    "text": plain(Body.text, entries.text),
    "token": plain(lambda body: body.text(TOKEN), entries.text),
    "truth": plain(lambda body: body.byte(0, 1) == 1, entries.truth),
    "value": plain(Body.value, spelled_value, shown_value),
}
KINDS["job"] = record(Job._make, "token token, stage stage, attempt octet, retry_at number, tested octet?")
KINDS["pair"] = record(tuple, "label label, version token", lambda pair, _: list(pair))
KINDS["rules"] = record(Rules._make, "days integer?, schedule text? 2", shown_rules)
KINDS["tag"] = record(tuple, "key text, value text", lambda tag, _: {"Key": tag[0], "Value": tag[1]})
KINDS |= {name: list_of(KINDS[name.removesuffix("s")]) for name in ("pairs", "tags", "texts")}

START_KIND = record(Start._make, "next number, last number, entries number, secrets number")
ROW_KIND = record(
    Row._make,
    "serial number, arn arn, name name, created number, changed number, description text?, kms text?, tags tags,"
    " versions number, next_version number, labels pairs, deletion number?, enabled truth, rotator text?, days days?,"
    " schedule text? 2, next_date number?, last_date number?, policy text?, regions texts 2, job job?",
)
VERSION_KIND = record(
    Version._make, "id token, serial number, made number, value value?, rotated octet?, by_rotation truth"
)
OF_ROWS = {START: ("start", START_KIND), ROW: ("secret", ROW_KIND), VERSION: ("version", VERSION_KIND)}
FIELDS = {act: fields_in(table) for act, table in ACTS.items()}


def kind_of(name):
    """The kind of this name, one of rows too."""
    return KINDS.get(name) or dict(OF_ROWS.values())[name]


# ---- entries


def acts_of(edition):
    return [act for act in ACTS if edition == 2 or act not in OF_THE_SECOND]


def read_entry(data, edition):
    """The entry that a body spells."""
    body = Body(data, edition)
    if edition == 2:
        body.byte(2)
    moment, caller = body.number(LAST_MOMENT), body.text()
    by = body.text() if edition == 2 else ""
    drawn = body.octets()
    act, prunes = read_act(body, bool(caller or by), len(drawn))
    fields = {field.name: value for field in FIELDS[act] for value in field.read(body)}
    body.end()
    return Entry(moment, caller, drawn, prunes, act, fields, by)


def read_act(body, is_asked, drawn):
    """An act that may stand behind such a head, and whether it drops versions."""
    field, acts = body.place, acts_of(body.edition)
    tag = body.octet()
    if not 1 <= tag % PRUNES <= len(acts):
        raise NotSpelled(field)
    act = acts[tag % PRUNES - 1]
    if act in UNASKED and (is_asked or drawn != UNASKED[act]):
        raise NotSpelled(field)
    return act, tag >= PRUNES


def spelled_entry(entry, edition):
    """The body of an entry. In the first format nobody has an ARN."""
    head = entries.natural(entry.moment) + entries.text(entry.caller)
    if edition == 2:
        head = b"\2" + head + entries.text(entry.by)
    tag = acts_of(edition).index(entry.act) + 1 + (PRUNES if entry.prunes else 0)
    return head + entries.octets(entry.drawn) + bytes([tag]) + spelled_fields(entry, edition)


def spelled_fields(entry, edition):
    return b"".join(field.spell(field_of(entry, field), edition) for field in FIELDS[entry.act])


def field_of(entry, field):
    """A field of an entry as a list of one, or of none where it is not there."""
    return [entry.fields[field.name]] if field.name in entry.fields else []


def shown_entry(entry, edition):
    """An entry as JSON."""
    shown = {"moment": entry.moment, "caller": entry.caller} | ({"by": entry.by} if edition == 2 else {})
    pairs = (pair for field in FIELDS[entry.act] for pair in field.show(field_of(entry, field), edition))
    shown |= {"drawn": entry.drawn.hex(), "act": {entry.act: dict(pairs)}}
    return shown | ({"prunes": True} if entry.prunes else {})


# ---- rows


def is_of_rows(body):
    return bool(body) and body[0] in OF_ROWS


def read_row(data, edition, sign):
    """The start, the secret without its versions, or the version that a body spells."""
    body = Body(data, edition)
    body.byte(sign)
    found = OF_ROWS[sign][1].read(body)
    body.end()
    return found


def spelled_row(found, edition, sign):
    return bytes([sign]) + OF_ROWS[sign][1].spell(found, edition)


def shown_row(data, edition):
    """What a body of rows says as JSON, behind its name."""
    name, kind = OF_ROWS[data[0]]
    return {name: kind.show(read_row(data, edition, data[0]), edition)}


def read_base(bodies, edition):
    """The base that bodies spell, all of them and in order. A place that is not spelled is one in all their bytes."""
    rest, place = iter(bodies), 0

    def following(sign):
        nonlocal place
        body = next(rest, b"")
        try:
            found = read_row(body, edition, sign)
        except NotSpelled as fault:
            raise NotSpelled(place + fault.args[0]) from None
        place += len(body)
        return found

    start, secrets = following(START), []
    for _ in range(start.secrets):
        row = following(ROW)
        secrets.append(Kept(row, [following(VERSION) for _ in range(row.versions)]))
    if next(rest, None) is not None:
        raise NotSpelled(place)
    return Base(start.next, start.last, start.entries, secrets)


def spelled_base(base, edition):
    """The bodies of a base."""
    start = Start(base.next, base.last, base.entries, len(base.secrets))
    bodies = [spelled_row(start, edition, START)]
    for row, versions in base.secrets:
        bodies.append(spelled_row(row, edition, ROW))
        bodies += [spelled_row(version, edition, VERSION) for version in versions]
    return bodies


# ---- files


def named(root):
    """The number of the journal that the bytes of a root name."""
    return 1 if root[:1] == b"\1" else 0


def journal_in(folder):
    """The path of the journal that a folder's root names, which need not be there."""
    path = os.path.join(folder, "root")
    with open(path if os.path.exists(path) else os.devnull, "rb") as root:
        return os.path.join(folder, f"journal-{named(root.read(1))}")


class Damaged(Exception):
    """The place of a record's gate, the number of the records before it, and what is wrong there, in short and told."""

    def __init__(self, place, number, why, told=None):
        super().__init__(f"damaged at {place}, entry {number}: {told or why}")
        self.place, self.number, self.why = place, number, why


def edition_of(data, editions=(1, 2)):
    """The format of a file that has more than nine bytes, which has to be one of these."""
    edition = HEADERS.get(data[:8])
    if edition not in editions:
        raise Damaged(0, 0, "the header")
    return edition


def frames(data):
    """The gate and the body of each whole record behind a header, up to the gate that is closed, and then that gate
    and None."""
    gate, number = 8, 0
    while data[gate] == 1:
        length, behind = int.from_bytes(data[gate + 1 : gate + 5], "big"), gate + 5
        if len(data) < behind or length > BODY_LIMIT or len(data) <= behind + length:
            raise Damaged(gate, number, "a record", f"{length} bytes of a body")
        yield gate, data[behind : behind + length]
        gate, number = behind + length, number + 1
    yield gate, None


def records_of(data, editions=(1, 2)):
    """The format of a file, the gate and the body of each record, and the gate that ends them."""
    if len(data) <= SHORT:
        return max(editions), [], 8
    edition = edition_of(data, editions)
    *records, (gate, _) = frames(data)
    return edition, records, gate


def whole_records(data):
    """The format of a file and its records up to the damage, if there is one, which is the third."""
    records = []
    if len(data) <= SHORT:
        return 2, records, None
    try:
        edition = edition_of(data)
        for gate, body in frames(data):
            if body is not None:
                records.append((gate, body))
    except Damaged as fault:
        return HEADERS.get(data[:8], 2), records, fault
    return edition, records, None


def base_of(records, edition):
    """The base that these records begin with, or None, and how many of them are of it."""
    bodies = list(itertools.takewhile(is_of_rows, (body for _, body in records)))
    if not bodies:
        return None, 0
    try:
        return read_base(bodies, edition), len(bodies)
    except NotSpelled as fault:
        raise Damaged(8, 0, "a snapshot", f"no snapshot: no field at {fault}") from None


def entries_behind(records, count, edition):
    """The gate and the entry of each record, which stand behind so many others."""
    for number, (gate, body) in enumerate(records, count):
        try:
            yield gate, read_entry(body, edition)
        except NotSpelled as fault:
            raise Damaged(gate, number, "an entry", f"no field at {fault}") from None


def journal(bodies, edition):
    """The bytes of a file with these bodies."""
    header = next(header for header, number in HEADERS.items() if number == edition)
    return entries.journal(bodies, header)
