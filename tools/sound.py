"""What is asked of a base that entries are counted from, written from docs/RULES.md alone.

A snapshot spells any numbers and dates that its bytes hold. What no run would have left is found here, and each flaw
has a name.
"""

import crons
import model

from formats import LAST_MOMENT

# The latest date that a secret keeps, and the latest of its next rotation.
LAST_DATE = 200086400000
LAST_ROTATION_DATE = 212622780800
TAGS_LIMIT = 50
LABELS_LIMIT = 20
ATTEMPTS = range(1, 6)
DAYS = range(1, 1001)


def is_sound(base):
    return not any(flaws(base))


def flaws(base):
    """The names of what is wrong with a base, one by one."""
    rows = [kept.row for kept in base.secrets]
    if base.last > LAST_MOMENT:
        yield "last moment"
    if len(rows) > model.SECRETS_LIMIT:
        yield "number of secrets"
    if not rise([row.serial for row in rows], base.next):
        yield "serials of secrets"
    if not differ([row.name for row in rows]):
        yield "names"
    for kept in base.secrets:
        yield from flaws_of(kept)


def flaws_of(kept):
    """The names of what is wrong with a secret."""
    row, versions = kept
    for name, fits in OF_A_ROW.items():
        if not fits(row):
            yield name
    for name, fits in OF_VERSIONS.items():
        if not fits(versions):
            yield name
    for name, fits in OF_BOTH.items():
        if not fits(row, {version.id: version for version in versions}):
            yield name
    if not rise([version.serial for version in versions], row.next_version):
        yield "serials of versions"


def rise(numbers, following):
    """Whether numbers rise, up to one that is greater than all."""
    return all(one < other for one, other in zip(numbers, [*numbers[1:], following]))


def differ(things):
    return len(set(things)) == len(things)


def is_arn_of(row):
    """Whether the ARN is the name's, with six letters or digits behind it."""
    front, suffix = row.arn[:-6], row.arn[-6:]
    return front == f"{model.ARN_BEGINNING}{row.name}-" and suffix.isascii() and suffix.isalnum()


def is_policy(text):
    try:
        model.policy_of(text)
    except model.Refusal:
        return False
    return model.FORMS["ResourcePolicy"](text)


def is_date(date):
    return date <= LAST_DATE


def may_be(fits):
    """The test of what need not be there."""
    return lambda found: found is None or fits(found)


def is_own(label):
    return label not in model.AWS_LABELS


# What is asked of a secret without its versions.
OF_A_ROW = {
    "ARN": is_arn_of,
    "description": lambda row: may_be(model.is_description)(row.description),
    "KMS key": lambda row: may_be(model.is_description)(row.kms),
    "policy": lambda row: may_be(is_policy)(row.policy),
    "date of creation": lambda row: is_date(row.created),
    "date of change": lambda row: is_date(row.changed),
    "date of deletion": lambda row: may_be(is_date)(row.deletion),
    "rotator": lambda row: may_be(model.is_description)(row.rotator),
    "days": lambda row: may_be(DAYS.__contains__)(row.days),
    "next date": lambda row: may_be(lambda date: date <= LAST_ROTATION_DATE)(row.next_date),
    "last date": lambda row: may_be(is_date)(row.last_date),
    "number of regions": lambda row: len(row.regions) <= model.REGIONS_LIMIT,
    "regions": lambda row: all(map(model.REGION.fullmatch, row.regions)),
    "schedule": lambda row: may_be(crons.is_expression)(row.schedule),
    "number of tags": lambda row: len(row.tags) <= TAGS_LIMIT,
    "keys of tags": lambda row: differ([key for key, _ in row.tags]),
    "tags": lambda row: all(model.are_tags([tag]) for tag in row.tags),
    "number of labels": lambda row: sum(is_own(label) for label, _ in row.labels) <= LABELS_LIMIT,
    "labels": lambda row: differ([label for label, _ in row.labels]),
}
# What is asked of a secret's versions.
OF_VERSIONS = {
    "number of versions": lambda versions: len(versions) <= model.VERSIONS_LIMIT,
    "ids of versions": lambda versions: differ([version.id for version in versions]),
    "values": lambda versions: all(may_be(model.is_value)(version.value) for version in versions),
    "attempts of versions": lambda versions: all(may_be(ATTEMPTS.__contains__)(it.rotated) for it in versions),
    "dates of versions": lambda versions: all(is_date(version.made) for version in versions),
}


def holder(row, label):
    return dict(row.labels).get(label)


def has_value(versions, version):
    return version in versions and versions[version].value is not None


def of_a_job(fits):
    """A test of a secret whose rotation is under way."""
    return lambda row, versions: row.job is None or fits(row, versions, row.job)


def is_live(row, versions, job):
    """Whether a job's version waits to become the current one."""
    is_waiting = job.token in versions and holder(row, "AWSPENDING") == job.token
    return row.deletion is None and is_waiting and holder(row, "AWSCURRENT") != job.token


# What is asked of a secret and its versions by their ids.
OF_BOTH = {
    "versions of labels": lambda row, versions: all(version in versions for _, version in row.labels),
    "current version": lambda row, versions: not versions or has_value(versions, holder(row, "AWSCURRENT")),
    "job": of_a_job(is_live),
    "attempt": of_a_job(lambda row, versions, job: job.attempt in ATTEMPTS),
    "test": of_a_job(lambda row, versions, job: (job.tested is not None) == (job.stage == model.STAGES[-1])),
    "tested attempt": of_a_job(lambda row, versions, job: may_be(ATTEMPTS.__contains__)(job.tested)),
    "value of a job": of_a_job(
        lambda row, versions, job: has_value(versions, job.token) == (job.stage != model.STAGES[0])
    ),
    "date of a job": of_a_job(lambda row, versions, job: is_date(job.retry_at)),
}
# The names of all flaws.
FLAWS = {"last moment", "number of secrets", "serials of secrets", "names", "serials of versions"}
FLAWS |= set(OF_A_ROW) | set(OF_VERSIONS) | set(OF_BOTH)
