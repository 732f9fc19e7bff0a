"""Journals that no run wrote, and what a program makes of them beside the model.

A true journal is what an account leaves whose clock goes on between its messages. Of most of them a field of an entry
is changed and spelled again, records are dropped, doubled, swapped or put in, or bytes are changed, cut off or added. A
seed's journal is the same in each run. Where the programs know bases (tools/stores.py), a journal is of either format,
in either file, and may begin with a base, of which fields are changed too.
"""

import contextlib
import json
import os
import subprocess
import tempfile

import crons
import formats
import model
import sound
import stores

from formats import Damaged, Entry

# Somebody forces the deletion of a secret that is not there: an entry that is legal and changes nothing.
DELETION_OF_NOBODY = ("opened", "the deletion of nobody")
# The same where an entry dropped old versions.
OLD_VERSIONS = ("opened", "old versions")

DAY = 86400
# What a line begins with that says which step of a rotation failed, as the local rotator's may.
STEP = "secretsd: the rotation of "
# When a history begins, how long its clock stands between two messages, and how many steps of rotations are taken
# behind each.
BEGINNINGS = [0, model.NOW - 40 * DAY, model.NOW, model.NOW, formats.LAST_MOMENT - 9 * DAY]
WAITS = [0, 0, 0, 0, 1, 29, 60, 180, DAY, 7 * DAY, 31 * DAY, 1000 * DAY]
SIZES = [1, 5, 10, 20, 40]
WEIGHTS = {"CreateSecret": 2, "PutSecretValue": 4, "UpdateSecret": 2, "DeleteSecret": 1, "RestoreSecret": 1}
WEIGHTS |= {"UpdateSecretVersionStage": 5, "TagResource": 1, "UntagResource": 1, "RotateSecret": 6}
WEIGHTS |= {"PutResourcePolicy": 2, "DeleteResourcePolicy": 1, "CancelRotateSecret": 0.5}
# Those of the second format.
WEIGHTS_OF_THE_SECOND = {"ReplicateSecretToRegions": 1, "RemoveRegionsFromReplication": 0.5}
PERSONS = [model.ROOT, model.ROOT._replace(key="ADA"), model.ROOT._replace(key="é" * 9)]
STEPS = [0, 1, 2, 3, 100]
MOVES = [1, 60, DAY, 30 * DAY, 1001 * DAY]
ODD_ARNS = ["", "a", model.ARN_BEGINNING, model.ARN_BEGINNING.upper() + "a-ABCDEF", model.ARN_BEGINNING + "n-ABCDEF"]
LONG_VALUES = ["x" * 65536, "x" * 65537, b"\xff" * 65537]
ANSWERS = [True, False, None, "v", b"\0", '{"password":"long enough"}', ""]
# Acts behind which a secret is due a day later, or gone seven days later; or not, since the later one undoes the first.
EDGES = [["RotateSecret"], ["DeleteSecret"]] * 3
EDGES += [["RotateSecret", "DeleteSecret"], ["RotateSecret", "CancelRotateSecret"]]
EDGE_MEMBERS = {
    "CancelRotateSecret": {},
    "DeleteSecret": {"RecoveryWindowInDays": 7},
    "RotateSecret": {"RotateImmediately": False, "RotationRules": model.Rules(1)},
}
# Acts whose one field is the SecretId.
OF_A_SECRET = ["RestoreSecret", "DeleteResourcePolicy", "CancelRotateSecret"]
# How many values one secret is given one after the other, how far they are apart, and which of their entries prune.
PUTS = [60, 101, 150, 300]
APART = [[0], [0, 1, 60], [0, 0, 0, DAY - 1], [DAY, DAY - 1], [60, 30 * DAY]]
PRUNING = [[True], [True], [True, False], [False]]
# How many versions of a secret are read.
READ_VERSIONS = 5
# Numbers of rows, dates and attempts among them.
ODD_NUMBERS = [0, 1, 5, 6, 1000, 1001, sound.LAST_DATE, sound.LAST_DATE + 1, model.NO_NUMBER - 1, model.NO_NUMBER]
ODD_NUMBERS += [model.NOW, formats.LAST_MOMENT, formats.LAST_MOMENT + 1, sound.LAST_ROTATION_DATE + 1]
# Roots that name a journal, by its number, and what may stand in the other one.
ROOTS = {0: [b"", b"\0", b"\2", b"\0\1", b"\xff"], 1: [b"\1", b"\1\0", b"\1abc"]}
OTHERS = [b"", b"\0", b"SMJRNL01\0", b"SMJRNL02\1", b"anything else"]


class Forger:
    """Makes the files of a folder, from the messages of a seed's streams. What was forged stands in `forged`."""

    def __init__(self, streams, bases=None):
        self.streams, self.random = streams, streams.random
        self.bases = stores.BASES if bases is None else bases
        self.edition = self.random.choice([1, 2]) if self.bases else 1
        self.account, self.front = self.history(), []
        if self.bases and self.random.random() < 0.6:
            self.stand_on_base()
        self.forged = []

    def history(self):
        """An account that was asked for changes, while its clock went on and rotations were taken some steps on."""
        account = model.Account(edition=self.edition)
        account.clock = self.random.choice(BEGINNINGS)
        self.go_on(account, ["CreateSecret"] * 2)
        return account

    def go_on(self, account, first=()):
        """Asks an account for changes."""
        weights = WEIGHTS | (WEIGHTS_OF_THE_SECOND if self.edition == 2 else {})
        operations = self.random.choices(list(weights), list(weights.values()), k=self.random.choice(SIZES))
        for operation in [*first, *operations]:
            account.clock = min(account.clock + self.random.choice(WAITS), formats.LAST_MOMENT)
            person = self.random.choice(PERSONS)
            with contextlib.suppress(model.Refusal):
                account.answer(person, operation, json.dumps(self.members(account, operation)).encode())
            steps = self.random.choice(STEPS)
            while steps and account.turn():
                steps -= 1

    def stand_on_base(self):
        """What the account's entries made becomes a base, and others come behind it."""
        base = stores.base_of(self.account)
        self.front = formats.spelled_base(base, self.edition)
        self.account.before, self.account.entries = base.entries, []
        self.go_on(self.account)

    def members(self, account, operation):
        """The members of a request, which mostly names a secret that is there."""
        members = self.streams.members(operation, account)
        if self.edition == 1:
            members.pop("AddReplicaRegions", None)
        if operation == "RotateSecret" and self.random.random() < 0.5:
            members["RotationRules"] = {"AutomaticallyAfterDays": self.random.choice([1, 30])}
        if "SecretId" in members and account.secrets and self.random.random() < 0.8:
            members["SecretId"] = self.random.choice(account.secrets).name
        return members

    def data(self):
        """The journal. Mostly one thing is forged in it, sometimes none or two."""
        bodies = self.front + self.account.entries
        kinds = [OF_ENTRIES, OF_ENTRIES, OF_RECORDS, OF_MOMENTS] + [OF_ROWS] * (3 if self.front else 0)
        for _ in range(self.random.choice([0, 1, 1, 1, 2])):
            bodies = self.one_of(self.random.choice(kinds), bodies)
        data = formats.journal(bodies, self.edition)
        return self.one_of(OF_BYTES, data) if self.random.random() < 0.25 else data

    def files(self):
        """The files of a folder with the journal."""
        data = self.data()
        if not self.bases:
            return data, b"", b""
        number, other = self.random.choice([0, 1]), self.random.choice([*OTHERS, data])
        journals = [data, other] if number == 0 else [other, data]
        return *journals, self.random.choice(ROOTS[number])

    def one_of(self, kinds, thing):
        kind = self.random.choice(kinds)
        self.forged.append(kind)
        return getattr(self, kind)(thing)

    # Entries: the new bodies of a journal.

    def body(self, entry):
        return formats.spelled_entry(entry, self.edition)

    def entry(self, body):
        """The entry of a body, or None."""
        with contextlib.suppress(formats.NotSpelled):
            return formats.read_entry(body, self.edition)

    def with_another(self, bodies, change):
        """One entry of an act becomes what `change` makes of it, each act as often as any other."""
        acts = {}
        for at, body in enumerate(bodies):
            entry = self.entry(body)
            if entry is not None:
                acts.setdefault(entry.act, []).append((at, entry))
        if not acts:
            return bodies
        at, entry = self.random.choice(acts[self.random.choice(sorted(acts))])
        return bodies[:at] + [self.body(change(entry))] + bodies[at + 1 :]

    def field(self, bodies):
        return self.with_another(bodies, self.with_a_field)

    def with_a_field(self, entry):
        field = self.random.choice([it for it in formats.FIELDS[entry.act] if it.is_in(self.edition)])
        fields = dict(entry.fields)
        if field.name in fields and field.is_optional and self.random.random() < 0.3:
            del fields[field.name]
        else:
            fields[field.name] = self.value_for(field.name, field.kind_name, fields.get(field.name))
        return entry._replace(fields=fields)

    def value_for(self, name, kind, before):
        """Another value of a field, mostly one that is in its form."""
        streams, choice = self.streams, self.random.choice
        if kind in ("truth", "attempt", "stage"):
            others = {"truth": [True, False], "attempt": range(1, 6), "stage": model.STAGES}[kind]
            return choice([other for other in others if other != before])
        if kind == "text":
            return self.text_for(name)
        values = {
            "answer": lambda: choice(ANSWERS + LONG_VALUES),
            "arn": lambda: choice(self.arns() + ODD_ARNS),
            "bytes": lambda: choice([b"", b"\0\xff", LONG_VALUES[2]]),
            "integer": lambda: choice([7, 30, 8, 6, 31, 0, -1]),
            "rules": self.rules,
            "tags": lambda: [(tag["Key"], tag.get("Value", "")) for tag in streams.tags()],
            "texts": {"TagKeys": streams.keys, "VersionStages": self.labels}.get(name, streams.region_names),
            "token": lambda: choice([streams.token() for _ in range(5)] + ["t" * 31]),
        }
        return values[kind]() if kind in values else self.value_of_a_row(kind, before)

    def rules(self):
        rules = model.Rules(self.random.choice([None, 1, 30, 1000, 0, 1001, -(2**63)]))
        has_schedule = self.edition == 2 and self.random.random() < 0.3
        return rules._replace(schedule=self.schedule()) if has_schedule else rules

    def schedule(self):
        odd = ["rate(1 day)", "rate(3 hours)", "cron(0 24 * * ? *)", "cron(0 0 30 2 ? *)", ""]
        return self.random.choice([*odd, crons.some_schedule(self.random), crons.some_schedule(self.random)])

    def value_of_a_row(self, kind, before):
        """Another value of a field of a row."""
        choice = self.random.choice
        values = {
            "days": lambda: choice([0, 1, 1000, 1001, 2**32 - 1]),
            "job": lambda: self.with_a_part(before, "job") if before else self.job(),
            "name": lambda: choice([secret.name for secret in self.account.secrets] + ["a", "n" * 512, "a b"]),
            "number": lambda: choice(ODD_NUMBERS if before is None else [*ODD_NUMBERS, before + 1, max(before - 1, 0)]),
            "octet": lambda: choice([0, 1, 5, 6, 255]),
            "pairs": lambda: self.pairs(before),
            "value": lambda: choice(ANSWERS[3:] + LONG_VALUES),
        }
        return values[kind]() % 2**64 if kind == "number" else values[kind]()

    def job(self):
        tokens = [version for secret in self.account.secrets for version in secret.versions] + [self.streams.token()]
        stage, tested = self.random.choice(model.STAGES), self.random.choice([None, 1])
        return formats.Job(self.random.choice(tokens), stage, 1, 0, tested)

    def pairs(self, before):
        """Labels of which one is dropped, doubled or on another version."""
        ids = [version for _, version in before] + [self.streams.token()]
        one = (self.streams.label(), self.random.choice(ids))
        if not before:
            return [one]
        at = self.random.randrange(len(before))
        moved = (before[at][0], self.random.choice(ids))
        others = [[], [before[at], one], [before[at], moved], [moved]]
        return before[:at] + self.random.choice(others) + before[at + 1 :]

    def with_a_part(self, thing, kind):
        """A row, a version or a job of which one field is another one."""
        fields = formats.kind_of(kind).fields
        field = self.random.choice([it for it in fields if it.is_in(self.edition)])
        before = getattr(thing, field.name)
        if before is not None and field.is_optional and self.random.random() < 0.3:
            return thing._replace(**{field.name: None})
        return thing._replace(**{field.name: self.value_for(field.name, field.kind_name, before)})

    def text_for(self, name):
        streams = self.streams
        texts = {
            "Name": lambda: streams.secret(model.Account()),
            "ResourcePolicy": streams.policy,
            "SecretId": lambda: streams.secret(self.account),
            "SecretString": lambda: streams.value().get("SecretString", LONG_VALUES[1]),
            "VersionStage": streams.label,
        }
        if name in texts:
            return texts[name]()
        is_token = name in ("ClientRequestToken", "MoveToVersionId", "RemoveFromVersionId")
        return streams.token() if is_token else streams.details().get("Description", "")

    def labels(self):
        return [self.streams.label() for _ in range(self.random.choice([1, 2, 20, 0, 21]))]

    def arns(self):
        return [secret.arn for secret in self.account.secrets]

    def head(self, bodies):
        """Another caller or other random bytes."""

        def change(entry):
            same = entry.drawn
            drawn = self.random.choice([b"", same[:-1], same + b"\0", bytes(reversed(same)), bytes(16), bytes(22)])
            caller = self.random.choice(["", "ADA", "ä b"])
            others = [entry._replace(caller=caller), entry._replace(drawn=drawn)]
            return self.random.choice(others + ([entry._replace(by=caller)] if self.edition == 2 else []))

        return self.with_another(bodies, change)

    def act(self, bodies):
        """Another act with the same fields, or the other bit that says whether versions are dropped."""

        def change(entry):
            if entry.act not in OF_A_SECRET:
                return entry._replace(prunes=not entry.prunes)
            return entry._replace(act=self.random.choice(OF_A_SECRET))

        return self.with_another(bodies, change)

    def moment(self, bodies):
        """One entry at another moment."""
        moments = [0, formats.LAST_MOMENT, formats.LAST_MOMENT + 1, -1]

        def change(entry):
            near = entry.moment + self.random.choice(MOVES) * self.random.choice([-1, 1])
            moment = self.random.choice(moments) if self.random.random() < 0.2 else near
            return entry._replace(moment=moment % 2**64)

        return self.with_another(bodies, change)

    def later(self, bodies):
        """All entries from one on at later moments."""
        at, more = self.random.randrange(len(bodies) + 1), self.random.choice(MOVES)
        place = 0 if self.edition == 1 else 1

        def moved(body):
            if formats.is_of_rows(body):
                return body
            moment = int.from_bytes(body[place : place + 8], "big") + more
            return body[:place] + (moment % 2**64).to_bytes(8, "big") + body[place + 8 :]

        return bodies[:at] + [moved(body) for body in bodies[at:]]

    # Rows: a field of one is changed.

    def row(self, bodies):
        """Another field of a row: of the start, of a secret or of a version, each as often as any other."""
        signs = {}
        for at, body in enumerate(bodies):
            if formats.is_of_rows(body):
                signs.setdefault(body[0], []).append(at)
        if not signs:
            return bodies
        sign = self.random.choice(sorted(signs))
        at, kind = self.random.choice(signs[sign]), formats.OF_ROWS[sign][0]
        try:
            row = formats.read_row(bodies[at], self.edition, sign)
        except formats.NotSpelled:
            return bodies
        return bodies[:at] + [formats.spelled_row(self.with_a_part(row, kind), self.edition, sign)] + bodies[at + 1 :]

    # Records: some are left out, doubled, swapped or put in.

    def dropped(self, bodies):
        at = self.random.randrange(len(bodies) + 1)
        return bodies[:at] + bodies[at + self.random.choice([1, 1, 1, 2, 5]) :]

    def doubled(self, bodies):
        at = self.random.randrange(len(bodies) + 1)
        again = bodies[at : at + 1]
        to = self.random.choice([at, len(bodies)])
        return bodies[:to] + again + bodies[to:]

    def swapped(self, bodies):
        if len(bodies) < 2:
            return bodies
        one, other = sorted(self.random.sample(range(len(bodies)), 2))
        other = self.random.choice([one + 1, other])
        swapped = list(bodies)
        swapped[one], swapped[other] = bodies[other], bodies[one]
        return swapped

    def put_in(self, bodies):
        """An entry that nobody asked for, mostly one that is due there, or the last entry of another history."""
        at = self.random.randrange(len(bodies) + 1)
        account = stores.account_of(bodies[:at], self.edition)
        account.begin(min(account.last + self.random.choice(WAITS[:6]), formats.LAST_MOMENT))
        return bodies[:at] + self.news(account) + bodies[at:]

    def news(self, account):
        answer = self.random.choice(ANSWERS + LONG_VALUES)
        made = [self.step_of(secret, answer) for secret in account.secrets if secret.job is not None]
        made += [self.start_of(secret) for secret in account.secrets if secret.is_due() or self.random.random() < 0.1]
        if not made or self.random.random() < 0.2:
            made = self.history().entries[-1:]
        if self.random.random() < 0.2:
            made = [self.deletion_of_nobody(account.moment)]
        return [self.random.choice(made)] if made else []

    def step_of(self, secret, answer):
        job = secret.job
        step = {"ARN": secret.arn, "Token": job.token, "Stage": job.stage, "Attempt": job.attempt, "Answer": answer}
        return self.body(Entry(secret.account.moment, "", b"", False, "Reported", step))

    def start_of(self, secret):
        drawn = bytes(self.random.randrange(256) for _ in range(16))
        return self.body(Entry(secret.account.moment, "", drawn, False, "Begun", {"ARN": secret.arn}))

    def edge(self, bodies):
        """Behind all others entries that let a secret be due or gone at a moment, and one then or just before."""
        account = stores.account_of(bodies, self.edition)
        live = [secret for secret in account.secrets if secret.deletion is None]
        if not live or self.random.random() < 0.1:
            return bodies + self.too_long(account)
        free = [secret for secret in live if secret.holder("AWSCURRENT") and secret.holder("AWSPENDING") is None]
        secret, acts = self.random.choice(free or live), self.random.choice(EDGES)
        made = [self.entry_at(account.last, act, SecretId=secret.arn, **EDGE_MEMBERS[act]) for act in acts]
        account.moment = account.last + DAY * (1 if acts[0] == "RotateSecret" else 7) - self.random.choice([0, 1])
        return bodies + made + [self.start_of(secret) if acts[0] == "RotateSecret" else self.request_for(secret)]

    def aged(self, bodies):
        """Behind all others some hundred new values for one secret, at moments that may be days apart. Some of the entries
        drop the old versions, and some versions have a label. Now and then a token comes again."""
        account = stores.account_of(bodies, self.edition)
        live = [secret for secret in account.secrets if secret.deletion is None]
        if not live:
            return bodies
        secret, moment, made = self.random.choice(live), account.last, []
        apart, pruning = self.random.choice(APART), self.random.choice(PRUNING)
        for number in range(self.random.choice(PUTS)):
            moment = min(moment + self.random.choice(apart), formats.LAST_MOMENT)
            again = self.random.random() < 0.003
            token = f"{self.random.randrange(number + 1) if again else number:032}"
            fields = {"ClientRequestToken": token, "SecretId": secret.arn, "SecretString": str(number)}
            if self.random.random() < 0.05:
                fields["VersionStages"] = [self.random.choice(["aged", "old", "AWSPREVIOUS"])]
            entry = Entry(moment, "ADA", b"", self.random.choice(pruning), "PutSecretValue", fields)
            made.append(self.body(entry))
        return bodies + made

    def entry_at(self, moment, act, drawn=b"", **fields):
        prunes = self.random.random() < 0.5
        return self.body(Entry(moment, "ADA", drawn, prunes, act, model.as_counted(act, fields)))

    def too_long(self, account):
        """An answer, if there is a step, whose record is as long as one may be, or a byte longer."""
        working = [secret for secret in account.secrets if secret.job is not None][:1]
        lengths = [formats.BODY_LIMIT - len(self.step_of(secret, "")) for secret in working]
        more = self.random.choice([0, 1])
        return [self.step_of(secret, "x" * (length + more)) for secret, length in zip(working, lengths)]

    def request_for(self, secret):
        """An entry that is legal while a secret is scheduled for deletion, or once it is gone."""
        moment = secret.account.moment
        if self.random.random() < 0.5:
            return self.entry_at(moment, "RestoreSecret", SecretId=secret.name)
        return self.entry_at(moment, "CreateSecret", drawn=bytes(6), Name=secret.name)

    def deletion_of_nobody(self, moment):
        nobody = self.random.choice(["nobody", model.ARN_BEGINNING + "nobody-ABCDEF"])
        return self.entry_at(moment, "DeleteSecret", ForceDeleteWithoutRecovery=True, SecretId=nobody)

    # Bytes of the file.

    def flipped(self, data):
        at = self.random.randrange(len(data))
        return data[:at] + bytes([data[at] ^ 1 << self.random.randrange(8)]) + data[at + 1 :]

    def high_bit(self, data):
        """One letter of a text, if there is one, is no letter any more, and the text mostly none."""
        letters = [at for at in range(9, len(data)) if 97 <= data[at] <= 122]
        at = self.random.choice(letters or [8])
        return data[:at] + bytes([data[at] ^ 128]) + data[at + 1 :]

    def header(self, data):
        at = self.random.randrange(8)
        return data[:at] + bytes([data[at] ^ 1]) + data[at + 1 :]

    def another_gate_or_length(self, data):
        """One of the five bytes at the beginning of a record is another one, or the gate that ends all."""
        try:
            places = [place for place, _ in formats.records_of(data)[1]] + [len(data) - 1]
        except Damaged:
            return data
        at = min(self.random.choice(places) + self.random.choice([0, 0, 0, 1, 2, 3, 4]), len(data) - 1)
        return data[:at] + bytes([self.random.choice([0, 1, 2, 255, data[at] ^ 1])]) + data[at + 1 :]

    def cut(self, data):
        return data[: self.random.choice([self.random.randrange(len(data)), len(data) - 1, self.random.randrange(10)])]

    def added(self, data):
        return data + self.random.choice([b"\0", b"\1", b"\1\0\0\0\0\0", b"\0" * 100, data, data[8:]])


OF_ENTRIES = ["field", "field", "field", "head", "head", "act", "moment", "later"]
OF_ROWS = ["row"]
OF_RECORDS = ["dropped", "doubled", "swapped", "put_in", "put_in"]
OF_MOMENTS = ["edge", "edge", "aged"]
OF_BYTES = ["flipped", "flipped", "high_bit", "high_bit", "header", "another_gate_or_length", "cut", "added"]


# ---- what is made of a journal


def question(operation, **members):
    """A message of whoever has the key ADA."""
    body = json.dumps(members).encode()
    head = f"POST / HTTP/1.1\r\nX-Amz-Target: secretsmanager.{operation}\r\nContent-Length: {len(body)}\r\n"
    return f"{head}Authorization: Credential=ADA/\r\n\r\n".encode() + body


def questions(account):
    """Messages that show what an account holds, and one that makes an entry."""
    asked = [question("ListSecrets", IncludePlannedDeletion=True)]
    for secret in account.secrets:
        asked += [question(name, SecretId=secret.arn) for name in ("DescribeSecret", "GetResourcePolicy")]
        asked.append(question("ListSecretVersionIds", SecretId=secret.arn, IncludeDeprecated=True))
        read = list(secret.versions)[-READ_VERSIONS:]
        asked += [question("GetSecretValue", SecretId=secret.arn, VersionId=version) for version in read]
    return b"".join(asked + [question("CreateSecret", Name="afterwards"), asked[0]])


class Seen:
    """What a run of a program over a folder shows: its code, what it writes, what it says but for steps of rotations
    that failed, and the files that it leaves."""

    def __init__(self, program, folder, mode, stream, people=None):
        words = [program, "--mode", mode, "--number", "0", "--data", folder]
        words += ["--people", people] if people else []
        run = subprocess.run(words, input=stream, capture_output=True)
        self.code, self.output = run.returncode, run.stdout
        lines = run.stderr.decode().splitlines(keepends=True)
        self.said = "".join(line for line in lines if not line.startswith(STEP))
        self.files = stores.read(folder)

    def differs(self, code, output, folder):
        """The names of what differs from a code, an output, and what the model's folder says and holds."""
        wanted = {"code": code, "output": output, "said": folder.said}
        names = [name for name, value in wanted.items() if getattr(self, name) != value]
        return names + [name for name, one, other in zip(stores.NAMES, self.files, folder.files) if one != other]

    def of_opening(self):
        """The same, but that it says nothing else than what is said of an opening."""
        self.said = "".join(line for line in self.said.splitlines(keepends=True) if stores.SAID.match(line))
        return self


def difference(program, files, mode="check"):
    """What differs from the model when a program opens a folder with these files, or None. A damaged one is opened in
    the mode alone, any other in mode check, and then it is read in mode exec."""
    wanted = stores.Folder(files)
    code, output = wanted.run("check")
    with tempfile.TemporaryDirectory() as folder:
        stores.write(folder, files)
        first = "check" if code == 0 else mode
        seen = Seen(program, folder, first, b"")
        names = seen.differs(code, output, wanted)
        if names or code != 0:
            return told(first, names, seen, output + wanted.said.encode())
        stream = questions(wanted.account)
        code, output = wanted.run("exec", stream)
        asked = Seen(program, folder, "exec", stream)
        return told("exec", asked.differs(code, output, wanted), asked, output)


def told(mode, names, seen, wanted):
    """A text for what differs, or None where nothing does."""
    if not names:
        return None
    ended = f"the program ended with {seen.code}, said {seen.said!r} and wrote {seen.output[-2000:]!r}"
    return f"mode {mode}, {names}: {ended}; the model wants {wanted[-2000:]!r}"


def reached_by(files):
    """What a folder reaches: how often each act is legal in it, and what is damaged in it, if something is."""
    folder = stores.Folder(files)
    folder.run("check")
    return folder.account.reached


def lacking(reached, bases=None):
    """What no journal reached: an act that was legal, one that was not, or another damage."""
    bases = stores.BASES if bases is None else bases
    acts, places = formats.acts_of(2 if bases else 1), ["the header", "a record", "an entry"] + (["a snapshot"] if bases else [])
    wanted = [("opened", act) for act in acts] + [("damaged", why) for why in acts + places]
    wanted += [DELETION_OF_NOBODY, OLD_VERSIONS]
    return [" ".join(it) for it in wanted if not reached[it]]
