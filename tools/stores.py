"""The files of a folder beside the model: what a program that runs on them answers, and the bytes that it leaves.

It is written from docs/FORMAT.md and docs/RULES.md alone. A program opens the journal that the root names, cuts off
what stands behind its last whole record, and makes its entries again behind their base. A base takes the place of a
file of the first format, and of one with more than 1,000 entries behind its base: it is written to the other file, and
then the root names that.
"""

import os
import re

import formats
import model
import sound

from formats import Damaged

# Whether the programs that are compared know two journals, a root, bases and the second format. One that doesn't has
# the first journal alone, in the first format.
BASES = True
JOURNAL_LIMIT = 536870912
# How many entries may stand behind a base before another one takes its place.
MOST_BEHIND = 1000
ROOT = 2
NAMES = ("journal-0", "journal-1", "root")
# What a line begins with that is said of an opening.
SAID = re.compile(r"secretsd: ([0-9]+ bytes behind|a checkpoint was made|the journal (was migrated|is damaged))")
EMPTY = (b"", b"", b"")


# ---- bases and accounts


def row_of(secret):
    """A secret as a row, and its versions."""
    said = secret.said.get
    row = formats.Row(
        secret.number, secret.arn, secret.name, secret.created, secret.changed, said("Description"), said("KmsKeyId"),
        secret.tags, len(secret.versions), secret.given, secret.labels, secret.deletion, secret.is_rotated,
        said("RotationLambdaARN"), *secret.rules, secret.next_rotation, said("LastRotatedDate"), secret.policy,
        secret.regions, secret.job,
    )
    return formats.Kept(row, [version_of(secret, version) for version in secret.versions])


def version_of(secret, version):
    return formats.Version(
        version, secret.numbers[version], secret.dates[version], secret.versions[version], secret.tested.get(version),
        version in secret.of_rotation,
    )


def base_of(account):
    """What an account's entries made, as a base."""
    return formats.Base(account.made, account.last, account.count(), [row_of(secret) for secret in account.secrets])


def secret_of(account, kept):
    """The secret that a row and its versions are."""
    row, versions = kept
    secret = model.Secret(account, row.serial, row.name, row.arn, list(row.tags))
    secret.created, secret.changed, secret.deletion, secret.policy = row.created, row.changed, row.deletion, row.policy
    secret.is_rotated, secret.rules, secret.next_rotation = row.enabled, model.Rules(row.days, row.schedule), row.next_date
    secret.labels, secret.given, secret.job = list(row.labels), row.next_version, row.job
    secret.regions = list(row.regions)
    said = {"Description": row.description, "KmsKeyId": row.kms, "RotationLambdaARN": row.rotator}
    said["LastRotatedDate"] = row.last_date
    secret.said = {name: value for name, value in said.items() if value is not None}
    for version in versions:
        secret.versions[version.id], secret.dates[version.id] = version.value, version.made
        secret.numbers[version.id] = version.serial
    secret.tested = {version.id: version.rotated for version in versions if version.rotated is not None}
    secret.of_rotation = {version.id for version in versions if version.by_rotation}
    return secret


def account_over(base, edition):
    """An account whose entries are counted from a base."""
    account = model.Account(edition=edition)
    account.made, account.last, account.before = base.next, base.last, base.entries
    account.secrets = [secret_of(account, kept) for kept in base.secrets]
    return account


def made_again(account, behind, count):
    """Makes entries again on an account, each as the body of a number from `count` on."""
    for number, (gate, entry) in enumerate(behind, count):
        try:
            account.again(entry)
        except model.Illegal:
            raise Damaged(gate, number, entry.act) from None
        account.reached["opened", entry.act] += 1


def account_of(bodies, edition):
    """The account of these bodies, up to the first that is no entry or no legal one."""
    records, account = [(0, body) for body in bodies], model.Account(edition=edition)
    try:
        base, count = formats.base_of(records, edition)
        account = account_over(base or formats.NOTHING, edition)
        made_again(account, formats.entries_behind(records[count:], count, edition), count)
    except Damaged:
        pass
    return account


# ---- folders


class Folder:
    """The bytes of two journals and of a root, what was said of the last opening, and what it reached."""

    def __init__(self, files=EMPTY, bases=None):
        self.bases = BASES if bases is None else bases
        self.editions = (1, 2) if self.bases else (1,)
        self.files, self.said, self.account = list(files), "", None

    def written(self):
        """The format in which the program writes."""
        return max(self.editions)

    def active(self):
        """The number of the journal that counts."""
        return formats.named(self.files[ROOT]) if self.bases else 0

    def open(self):
        """Opens the folder: its account is there then, up to the damage where it is refused."""
        self.said, self.account = "", model.Account(edition=self.written())
        number = self.active()
        data = self.files[number]
        if len(data) <= formats.SHORT:
            self.files[number] = formats.journal([], self.written())
            return
        edition, records, gate = formats.records_of(data, self.editions)
        self.cut(number, gate + 1)
        base, count = formats.base_of(records, edition) if self.bases else (None, 0)
        if base is not None:
            self.stand_on(base)
        # Each entry is read after those before it were made again, so that the first fault is told.
        made_again(self.account, formats.entries_behind(records[count:], count, edition), count)
        if self.bases and (edition == 1 or self.behind() > MOST_BEHIND):
            self.replace(edition)

    def cut(self, number, end):
        """Cuts off what stands behind the last whole record."""
        count = len(self.files[number]) - end
        self.files[number] = self.files[number][:end]
        if count:
            what = f"{count} bytes behind the last whole record of {NAMES[number]} are cut off, from byte {end} on"
            self.said += f"secretsd: {what}\n"

    def stand_on(self, base):
        """Counts entries from a base, if it is a sound one."""
        for flaw in sound.flaws(base):
            raise Damaged(8, 0, flaw)
        self.account = account_over(base, self.written())

    def replace(self, edition):
        """Puts what the entries made, as a base, in the place of all that is there, unless a file of the second format
        would be too long then."""
        old, base = self.active(), base_of(self.account)
        data = formats.journal(formats.spelled_base(base, 2), 2)
        if edition == 2 and len(data) > JOURNAL_LIMIT:
            return
        new, before = 1 - old, len(self.files[old])
        self.files[new] = data
        self.files[ROOT] = bytes([new]) + self.files[ROOT][1:]
        self.account.before, self.account.entries = base.entries, []
        what = "a checkpoint was made" if edition == 2 else "the journal was migrated"
        self.said += f"secretsd: {what}: {NAMES[old]} had {before} bytes, {NAMES[new]} has {len(data)}\n"

    def behind(self):
        """How many entries stand behind the base."""
        return len(self.account.entries)

    def append(self, bodies):
        """Adds the records of entries."""
        number = self.active()
        if bodies:
            added = formats.journal(bodies, self.written())[8:]
            self.files[number] = self.files[number][:-1] + added

    def run(self, mode, stream=b"", people=b""):
        """The code and the output of a run."""
        try:
            self.open()
        except Damaged as damaged:
            self.account.reached["damaged", damaged.why] += 1
            self.said += refusal(damaged)
            return 3, b""
        if mode == "check":
            return 0, model.summary(self.account)
        count = len(self.account.entries)
        self.account.people = model.People(people)
        self.account.restart()
        answered = model.run(stream, self.account)
        self.append(self.account.entries[count:])
        return answered


def refusal(damaged):
    """What is said of a folder that is damaged."""
    place = f"byte {damaged.place}, in the entry of number {damaged.number}, counted from 0"
    return f"secretsd: the journal is damaged at {place}\nsecretsd: status 3\n"


def write(path, files):
    """Writes the files of a folder that is there."""
    for name, data in zip(NAMES, files):
        with open(os.path.join(path, name), "wb") as file:
            file.write(data)


def read(path):
    """The files of a folder. One that is not there is empty."""
    return [read_file(os.path.join(path, name)) for name in NAMES]


def read_file(path):
    if not os.path.exists(path):
        return b""
    with open(path, "rb") as file:
        return file.read()
