"""Bases that are sound, the same with one flaw each, and snapshots that spell no base.

The sound one has a secret that has all that one may have, and one that has nothing. A program opens it. Any other is
refused, as damaged at the first gate.
"""

import formats
import model

from formats import Job, Kept, Row, Version

POLICY = '{"Version":"2012-10-17","Statement":{"Effect":"Deny","Principal":"*","Action":"s3:*","Resource":"*"}}'
LAST_DATE = 200086400000
LATE = LAST_DATE + 1
LONG = "é" * 2049


def token(number):
    return f"{number:032}"


def arn(name):
    return f"{model.ARN_BEGINNING}{name}-ABCDEF"


def version(number, serial, value):
    return Version(token(number), serial, 7, value, 5, True)


def versions(*values):
    """Versions of these values, from the number 1 and the serial 0 on."""
    return [version(serial + 1, serial, value) for serial, value in enumerate(values)]


def bare(serial, name):
    """A secret with nothing."""
    rotation = (False, None, None, None, None, None)
    row = (serial, arn(name), name, 0, LAST_DATE, None, None, [], 0, 0, [], None, *rotation, None, [], None)
    return Kept(Row(*row), [])


def full(serial):
    """A secret with all that one may have: its second version waits for a value."""
    made = [version(1, 0, "a"), version(2, 1, None), version(3, 5, b"\7" * 65536)]
    row = bare(serial, "app/db").row._replace(
        description=LONG[1:], kms=LONG[1:], tags=[("team", "a"), ("Team", "é" * 256)], versions=3, next_version=6,
        labels=[("AWSCURRENT", token(1)), ("AWSPENDING", token(2)), ("own", token(3))], enabled=True, rotator="arn:fn",
        days=1000, next_date=212622780800, last_date=LAST_DATE, policy=POLICY, job=job("createSecret", 5, None),
    )
    return Kept(row, made)


def job(stage, attempt, tested, number=2):
    return Job(token(number), stage, attempt, LAST_DATE, tested)


def base(*secrets, following=5, last=formats.LAST_MOMENT, count=7):
    """A base of secrets, with the serial of the next one, the last moment and how many entries were made."""
    return formats.Base(following, last, count, list(secrets))


def sound():
    """Sound bases, by what they have."""
    full_at_4 = full(4)
    tested = changed(full_at_4, values=("a", "b", "c"), job=job("finishSecret", 1, 5))
    return {
        "nothing": base(),
        "a secret with all": base(bare(3, "a"), full_at_4),
        "a rotation before its end": base(tested),
        "a schedule": base(changed(full_at_4, days=None, schedule="cron(0 0" + ",0" * 119 + " 10 * ? *)")),
        "regions": base(changed(full_at_4, regions=["a" * 32, *(f"eu-west-{number}" for number in range(19))])),
        "a region twice": base(changed(bare(3, "a"), regions=["a", "a"]), full_at_4),
        "no serial left": base(bare(0, "a"), following=model.NO_NUMBER),
        "no version's serial left": base(changed(full_at_4, next_version=model.NO_NUMBER)),
        "no entry left": base(full_at_4, count=model.NO_NUMBER),
        "a secret that is gone": base(changed(bare(3, "a"), deletion=1), full_at_4),
    }


def changed(kept, values=None, made=None, **fields):
    """A secret with other fields, and other versions where they or their values are given."""
    made = versions(*values) if values is not None else kept.versions if made is None else made
    row = kept.row._replace(**({"versions": len(made), "next_version": max(6, len(made))} | fields))
    return Kept(row, made)


def with_labels(*labels):
    return {"labels": [(label, token(number)) for label, number in labels]}


def with_more_tags(*tags):
    return {"tags": full(4).row.tags + list(tags)}


def with_more_labels(*labels):
    return {"labels": full(4).row.labels + [(label, token(number)) for label, number in labels]}


def with_version(at, **fields):
    """The versions, of which one has other fields."""
    made = list(full(4).versions)
    made[at] = made[at]._replace(**fields)
    return {"made": made}


# What is wrong with the secret that has all, by a name: its fields, and its versions. The flaw that is found stands
# before it.
OF_A_SECRET = {
    "another ARN": ("ARN", {"arn": arn("app/d")}),
    "five letters behind the ARN": ("ARN", {"arn": arn("app/db")[:-1]}),
    "a sign behind the ARN": ("ARN", {"arn": arn("app/db")[:-1] + "-"}),
    "a long description": ("description", {"description": LONG}),
    "a long KMS key": ("KMS key", {"kms": LONG}),
    "a policy that is none": ("policy", {"policy": "{}"}),
    "an empty policy": ("policy", {"policy": ""}),
    "a long policy": ("policy", {"policy": POLICY + " " * 20480}),
    "late creation": ("date of creation", {"created": LATE}),
    "late change": ("date of change", {"changed": LATE}),
    "late deletion": ("date of deletion", {"deletion": LATE, "job": None}),
    "a long rotator": ("rotator", {"rotator": LONG}),
    "no days": ("days", {"days": 0}),
    "many days": ("days", {"days": 1001}),
    "a late next rotation": ("next date", {"next_date": 212622780801}),
    "a late last rotation": ("last date", {"last_date": LATE}),
    "many regions": ("number of regions", {"regions": [f"eu-west-{number}" for number in range(21)]}),
    "a long region": ("regions", {"regions": ["a" * 33]}),
    "a region without a name": ("regions", {"regions": ["a", ""]}),
    "a capital in a region": ("regions", {"regions": ["EU-west-1"]}),
    "a sign in a region": ("regions", {"regions": ["eu_west-1"]}),
    "a schedule of too few hours": ("schedule", {"schedule": "rate(3 hours)"}),
    "a long schedule": ("schedule", {"schedule": "cron(0 0" + ",0" * 120 + " 1 * ? *)"}),
    "a tag twice": ("keys of tags", with_more_tags(("team", "b"))),
    "a tag without a key": ("tags", with_more_tags(("", "b"))),
    "a long key of a tag": ("tags", with_more_tags(("é" * 129, "b"))),
    "a tag of AWS": ("tags", with_more_tags(("aws:x", "b"))),
    "a long value of a tag": ("tags", with_more_tags(("x", "é" * 257))),
    "many tags": ("number of tags", with_more_tags(*((str(number), "") for number in range(49)))),
    "an id twice": ("ids of versions", {"made": [*full(4).versions, version(1, 6, "b")], "next_version": 7}),
    "a version's serial that is not below the next": ("serials of versions", {"next_version": 5}),
    "a version's serial twice": ("serials of versions", with_version(2, serial=1)),
    "a version's serials that fall": ("serials of versions", with_version(0, serial=2)),
    "a long value": ("values", with_version(0, value="x" * 65537)),
    "a late version": ("dates of versions", with_version(1, made=LATE)),
    "a version tested at no attempt": ("attempts of versions", with_version(1, rotated=0)),
    "a version tested at the sixth attempt": ("attempts of versions", with_version(1, rotated=6)),
    "a label twice": ("labels", with_more_labels(("own", 1))),
    "a label of no version": ("versions of labels", with_more_labels(("other", 4))),
    "many labels": ("number of labels", with_more_labels(*((str(number), 1) for number in range(20)))),
    "no current version": ("current version", with_labels(("AWSPENDING", 2))),
    "a current version without a value": (
        "current version", {"job": None} | with_labels(("AWSPENDING", 2), ("AWSCURRENT", 2))
    ),
    "a job of no version": ("job", {"job": job("createSecret", 1, None, 4)}),
    "a job that is not pending": ("job", with_labels(("AWSCURRENT", 1), ("AWSPENDING", 3))),
    "a job that is current": (
        "job",
        {"values": ("a", "b"), "job": job("setSecret", 1, None)} | with_labels(("AWSCURRENT", 2), ("AWSPENDING", 2)),
    ),
    "a job of what is deleted": ("job", {"deletion": 9}),
    "no attempt": ("attempt", {"job": job("createSecret", 0, None)}),
    "a sixth attempt": ("attempt", {"job": job("createSecret", 6, None)}),
    "tested too soon": ("test", {"job": job("createSecret", 1, 1)}),
    "not tested": ("test", {"values": ("a", "b", "c"), "job": job("finishSecret", 1, None)}),
    "tested at no attempt": ("tested attempt", {"values": ("a", "b", "c"), "job": job("finishSecret", 1, 0)}),
    "tested at the sixth attempt": ("tested attempt", {"values": ("a", "b", "c"), "job": job("finishSecret", 1, 6)}),
    "a value too soon": ("value of a job", {"values": ("a", "b", "c")}),
    "no value": ("value of a job", {"job": job("setSecret", 1, None)}),
    "a late retry": ("date of a job", {"job": job("createSecret", 1, None)._replace(retry_at=LATE)}),
}


def among_secrets():
    """What is wrong with a base as such: the flaw that is found, and the base."""
    one, many = bare(0, "a"), [bare(serial, f"s{serial}") for serial in range(model.SECRETS_LIMIT + 1)]
    values, labels = ["v"] * (model.VERSIONS_LIMIT + 1), [("AWSCURRENT", token(1))]
    return {
        "a name twice": ("names", base(one, bare(1, "a"), following=2)),
        "a serial twice": ("serials of secrets", base(bare(1, "a"), bare(1, "b"), following=2)),
        "serials that fall": ("serials of secrets", base(bare(1, "a"), bare(0, "b"), following=2)),
        "a serial that is not below the next": ("serials of secrets", base(one, bare(2, "b"), following=2)),
        "a serial that is never given": (
            "serials of secrets", base(one, bare(model.NO_NUMBER, "b"), following=model.NO_NUMBER)
        ),
        "a moment that no clock reads": ("last moment", base(one, last=formats.LAST_MOMENT + 1)),
        "many secrets": ("number of secrets", base(*many, following=len(many))),
        "many versions": ("number of versions", base(changed(one, values=values, labels=labels))),
    }


def flawed():
    """Each thing that may be wrong, by its name: the flaw that is found, and the base."""
    found = {name: (flaw, base(bare(3, "a"), changed(full(4), **parts))) for name, (flaw, parts) in OF_A_SECRET.items()}
    return found | among_secrets()


def is_in(edition, rows):
    """Whether a format has all that a base has."""
    return edition == 2 or all(row.schedule is None and not row.regions for row, _ in rows.secrets)


def spoiled(edition):
    """Bodies that begin as a snapshot does and spell no base, by their names."""
    start, bare_row, full_row, *made = formats.spelled_base(sound()["a secret with all"], edition)
    entry = formats.spelled_entry(formats.Entry(0, "", b"", False, "RestoreSecret", {"SecretId": "a"}), edition)
    other = formats.spelled_base(sound()["a secret with all"], 3 - edition)
    whole = [start, bare_row, full_row, *made]
    found = {
        "no start": whole[1:],
        "a secret missing": [start, bare_row],
        "the secrets in another order": [start, full_row, bare_row, *made],
        "a version missing": whole[:-1],
        "a version before its secret": [start, made[0], bare_row, full_row, *made[1:]],
        "a version too many": [*whole, made[0]],
        "a secret too many": [*whole, bare_row],
        "two starts": [start, *whole],
        "a start behind": [*whole, start],
        "nothing": [b""],
        "an entry in place of a version": [*whole[:-1], entry],
        "a secret of the other format": [start, bare_row, other[2], *made],
        "a byte behind a row": [start, bare_row + b"\0", full_row, *made],
        "a sign alone": [b"\xf1"],
        "a count that promises more": [start[:-1] + b"\3", *whole[1:]],
        "a count that promises all": [start[:-8] + b"\xff" * 8, *whole[1:]],
        "a label that is none": [start, bare_row, spelled_with(full_row, edition, labels=[("", token(1))]), *made],
        "a name that is none": [start, spelled_with(bare_row, edition, name="a b"), full_row, *made],
        "an ARN that is none": [start, spelled_with(bare_row, edition, arn="a"), full_row, *made],
        "days of five bytes": [start, spelled_with(bare_row, edition, days=2**32), full_row, *made],
    }
    return found


def spelled_with(body, edition, **fields):
    row = formats.read_row(body, edition, formats.ROW)
    return formats.spelled_row(row._replace(**fields), edition, formats.ROW)


def created(name, moment, edition):
    """The body of a CreateSecret."""
    return formats.spelled_entry(formats.Entry(moment, "", bytes(6), False, "CreateSecret", {"Name": name}), edition)


def with_entries(edition):
    """Bodies of a base and behind it, by what they show."""
    one, now = base(bare(0, "a"), last=model.NOW), created("b", model.NOW, edition)
    last = one._replace(entries=model.NO_NUMBER - 1)
    made = {
        "an entry at the last moment": (one, [now]),
        "an entry before the last moment": (one, [created("b", model.NOW - 1, edition)]),
        "an entry that the base refuses": (one, [created("a", model.NOW, edition)]),
        "the last entry that can be counted": (last, [now]),
        "an entry that can't be counted": (last, [now, created("c", model.NOW, edition)]),
        "an entry of the other format": (one, [now, created("c", model.NOW, 3 - edition)]),
        "an empty body": (one, [b""]),
        "a body of a sign that is none": (one, [b"\xf4"]),
    }
    return {name: formats.spelled_base(rows, edition) + behind for name, (rows, behind) in made.items()}


def bodies_in(edition):
    """The bodies of all that stands here, by its name."""
    rows = sound() | {name: rows for name, (_, rows) in flawed().items()}
    spelled = {name: formats.spelled_base(it, edition) for name, it in rows.items() if is_in(edition, it)}
    return spelled | spoiled(edition) | with_entries(edition)


def folders():
    """The name and the files of folders with all that stands here, in either format."""
    for edition in (1, 2):
        for number, (name, bodies) in enumerate(bodies_in(edition).items()):
            yield f"{name}, in format {edition}", files_of(bodies, edition, number % 2)


def files_of(bodies, edition, number):
    """The files of a folder whose journal of this number has these bodies."""
    journals = [b"", b""]
    journals[number] = formats.journal(bodies, edition)
    return *journals, bytes([number])
