"""Journals written by hand, and what comes of them: what mode check says of each, or where it is damaged.

A file is told by its parts: `1`, `2` or `3` for a header, SMJRNL01 to SMJRNL03, a letter for a record, `.` for a closed
gate, and behind a star a letter and how often its record comes; a closed gate ends it. What comes of it is written down
here from docs/FORMAT.md and docs/RULES.md alone: the counts of the first line of mode check, and what the opening did,
or the byte of the damage and how many records stand before it. The model (tools/stores.py) has to say it too.
"""

import collections
import itertools

import entries
import flawed
import formats
import hand_bodies
import model

# The bodies of the letters, capitals in the first format. `s` stands before the rows of a base of no secrets, after
# five entries; `u` before those of one secret, after seven, `k` of two, `l` of three and `j` of none; `w` as `u` at a
# moment that no clock reads; `m` before no secrets, after as many entries as there may be. `q` is a secret `b` without
# versions, `n` the same in us-east-1, `t` with the schedule rate(1 day), and `f` with rate(3 hours), which is no
# schedule. `r` is a secret `a` with one version, `h` with two, and `v` the version. `a`, `b` and `d` are forced
# deletions of secrets that aren't there, which are always legal, `p` the same where old versions are dropped, and `y`
# the same as `d` a second earlier; `e` the deletion of `b` in seven days, `c` the cancellation of a rotation of `a`,
# and `x` a body that is nothing.
LETTERS = {
    "s": "f10000000000000000000000006553f10900000000000000050000000000000000",
    "u": "f10000000000000002000000006553f10900000000000000070000000000000001",
    "k": "f10000000000000002000000006553f10900000000000000070000000000000002",
    "l": "f10000000000000002000000006553f10900000000000000070000000000000003",
    "j": "f10000000000000002000000006553f10900000000000000070000000000000000",
    "w": "f100000000000000020000002e90edd00100000000000000070000000000000001",
    "m": "f10000000000000000000000006553f109ffffffffffffffff0000000000000000",
    "q": "f200000000000000010000003d61726e3a6177733a736563726574736d616e616765723a75732d656173742d313a303030303030"
    "3030303030303a7365637265743a622d4162436445660000000162000000006553f100000000006553f101000000000000000000"
    "000000000000000000000000000000000000000000000000000000000000",
    "Q": "f200000000000000010000003d61726e3a6177733a736563726574736d616e616765723a75732d656173742d313a303030303030"
    "3030303030303a7365637265743a622d4162436445660000000162000000006553f100000000006553f101000000000000000000"
    "00000000000000000000000000000000000000000000000000",
    "n": "f200000000000000010000003d61726e3a6177733a736563726574736d616e616765723a75732d656173742d313a303030303030"
    "3030303030303a7365637265743a622d4162436445660000000162000000006553f100000000006553f101000000000000000000"
    "00000000000000000000000000000000000000000000000000000000010000000975732d656173742d3100",
    "t": "f200000000000000010000003d61726e3a6177733a736563726574736d616e616765723a75732d656173742d313a303030303030"
    "3030303030303a7365637265743a622d4162436445660000000162000000006553f100000000006553f101000000000000000000"
    "000000000000000000000000000000000000000000010000000b72617465283120646179290000000000000000",
    "f": "f200000000000000010000003d61726e3a6177733a736563726574736d616e616765723a75732d656173742d313a303030303030"
    "3030303030303a7365637265743a622d4162436445660000000162000000006553f100000000006553f101000000000000000000"
    "000000000000000000000000000000000000000000010000000d72617465283320686f757273290000000000000000",
    "r": "f200000000000000000000003d61726e3a6177733a736563726574736d616e616765723a75732d656173742d313a303030303030"
    "3030303030303a7365637265743a612d4162436445660000000161000000006553f100000000006553f101000000000000000000"
    "00000000010000000000000001000000010000000a41575343555252454e5400000020746f6b656e2d3030303030303030303030"
    "30303030303030303030303030303000000000000000000000000000",
    "h": "f200000000000000000000003d61726e3a6177733a736563726574736d616e616765723a75732d656173742d313a303030303030"
    "3030303030303a7365637265743a612d4162436445660000000161000000006553f100000000006553f101000000000000000000"
    "00000000020000000000000002000000010000000a41575343555252454e5400000020746f6b656e2d3030303030303030303030"
    "30303030303030303030303030303000000000000000000000000000",
    "R": "f200000000000000000000003d61726e3a6177733a736563726574736d616e616765723a75732d656173742d313a303030303030"
    "3030303030303a7365637265743a612d4162436445660000000161000000006553f100000000006553f101000000000000000000"
    "00000000010000000000000001000000010000000a41575343555252454e5400000020746f6b656e2d3030303030303030303030"
    "3030303030303030303030303030300000000000000000",
    "v": "f300000020746f6b656e2d30303030303030303030303030303030303030303030303030300000000000000000000000006553f1"
    "00010100000001780000",
    "a": "02000000006553f1090000000000000000000000000401000000000179",
    "b": "02000000006553f109000000000000000000000000040100000000017a",
    "A": "000000006553f10900000000000000000401000000000179",
    "B": "000000006553f1090000000000000000040100000000017a",
    "d": "02000000006553f1090000000000000000000000000401000000000178",
    "D": "000000006553f10900000000000000000401000000000178",
    "p": "02000000006553f1090000000000000000000000008401000000000178",
    "P": "000000006553f10900000000000000008401000000000178",
    "y": "02000000006553f1080000000000000000000000000401000000000178",
    "e": "02000000006553f10900000000000000000000000004000100000000000000070000000162",
    "c": "02000000006553f1090000000000000000000000000c0000000161",
    "C": "000000006553f10900000000000000000c0000000161",
    "x": "f4",
    "-": "",
}

# What a file gives, by its parts. The lengths and places are those of tools/read-journal.
OPENED = {
    "a file of the second format without an entry": ("2", "secrets 0 versions 0 entries 0"),
    "a file of the first format without an entry": ("1", "secrets 0 versions 0 entries 0"),
    "nine bytes with another header": ("3", "secrets 0 versions 0 entries 0"),
    "two entries": ("2ab", "secrets 0 versions 0 entries 2"),
    "an entry that drops old versions": ("2dpd", "secrets 0 versions 0 entries 3"),
    "a base of two secrets": ("2krvq", "secrets 2 versions 1 entries 7"),
    "two entries behind a base": ("2krvqab", "secrets 2 versions 1 entries 9"),
    "a base without secrets": ("2s", "secrets 0 versions 0 entries 5"),
    "another base without secrets": ("2j", "secrets 0 versions 0 entries 7"),
    "two entries behind a base without secrets": ("2jab", "secrets 0 versions 0 entries 9"),
    "a base of one secret": ("2uq", "secrets 1 versions 0 entries 7"),
    "an entry behind one secret": ("2uqd", "secrets 1 versions 0 entries 8"),
    "the deletion of what is in the base": ("2uqe", "secrets 1 versions 0 entries 8"),
    "a secret with a schedule": ("2ut", "secrets 1 versions 0 entries 7"),
    "a secret in a region": ("2un", "secrets 1 versions 0 entries 7"),
    "as many entries as there may be": ("2m", "secrets 0 versions 0 entries 18446744073709551615"),
    "a thousand entries": ("2*d1000", "secrets 0 versions 0 entries 1000"),
    "a thousand entries behind a base": ("2uq*d1000", "secrets 1 versions 0 entries 1007"),
    "a thousand entries and one": ("2*d1001", "secrets 0 versions 0 entries 1001, checkpoint 34043 47"),
    "a thousand entries and one behind a base": ("2uq*d1001", "secrets 1 versions 0 entries 1008, checkpoint 34220 186"),
    "a deletion and a thousand entries": ("2uqe*d1000", "secrets 1 versions 0 entries 1008, checkpoint 34228 194"),
    "a schedule and a thousand entries": ("2ut*d1001", "secrets 1 versions 0 entries 1008, checkpoint 34235 201"),
    "an entry of the first format": ("1D", "secrets 0 versions 0 entries 1, migrated 38 47"),
    "two of the first format": ("1AB", "secrets 0 versions 0 entries 2, migrated 67 47"),
    "three of the first format": ("1DDD", "secrets 0 versions 0 entries 3, migrated 96 47"),
    "one that drops old versions": ("1DP", "secrets 0 versions 0 entries 2, migrated 67 47"),
    "many of the first format": ("1*D1001", "secrets 0 versions 0 entries 1001, migrated 29038 47"),
    "a base of the first format": ("1uQ", "secrets 1 versions 0 entries 7, migrated 181 186"),
    "an entry behind it": ("1uQD", "secrets 1 versions 0 entries 8, migrated 210 186"),
    "two secrets of the first format and entries": ("1kRvQAB", "secrets 2 versions 1 entries 9, migrated 490 442"),
    "ten bytes of the first format": ("1.", "secrets 0 versions 0 entries 0, cut 1 9, migrated 9 47"),
    "ten bytes of the second format": ("2.", "secrets 0 versions 0 entries 0, cut 1 9"),
    "an entry behind the last gate": ("2a.b", "secrets 0 versions 0 entries 1, cut 35 43"),
    "another thing behind the last gate": ("1A.x", "secrets 0 versions 0 entries 1, cut 7 38, migrated 38 47"),
    "a version behind the last gate": ("2krvq.v", "secrets 2 versions 1 entries 7, cut 68 442"),
    "a base behind the last gate": ("2krvqa.krvq", "secrets 2 versions 1 entries 8, cut 434 476"),
}

# A file that is damaged, by its parts: the byte and how many records stand before it.
DAMAGED = {
    "another header": ("3a", 0, 0),
    "an entry of the first format in the second": ("2A", 8, 0),
    "the same behind an entry": ("2aA", 42, 1),
    "an entry of the second format in the first": ("1a", 8, 0),
    "an entry of the second format behind one of the first": ("1Aa", 37, 1),
    "a secret of the first format": ("2kRvq", 8, 0),
    "a secret of the second format": ("1krvQ", 8, 0),
    "rows without a start": ("2rvq", 8, 0),
    "a secret missing": ("2krv", 8, 0),
    "a version missing": ("2krq", 8, 0),
    "a version before its secret": ("2kvrq", 8, 0),
    "a third secret missing": ("2lrvq", 8, 0),
    "a second version missing": ("2khvq", 8, 0),
    "a version too many": ("2krvqv", 8, 0),
    "a start behind": ("2krvqk", 8, 0),
    "a start alone": ("2k", 8, 0),
    "a start and what is nothing": ("2kx", 8, 0),
    "a secret that no start counts": ("2jr", 8, 0),
    "two starts": ("2jk", 8, 0),
    "an entry of the first format behind a base": ("2krvqA", 441, 4),
    "an empty body behind a base": ("2krvq-a", 441, 4),
    "nothing behind a base": ("2krvqxa", 441, 4),
    "nothing behind an entry": ("2krvqax", 475, 5),
    "a start behind an entry": ("2krvqak", 475, 5),
    "a base behind an entry": ("2akrvq", 42, 1),
    "a body that is nothing": ("2x", 8, 0),
    "an empty body": ("2-", 8, 0),
    "an illegal entry": ("2c", 8, 0),
    "an illegal entry behind another": ("2dc", 42, 1),
    "an illegal one of the first format": ("1DC", 37, 1),
    "the deletion of what is not there": ("2e", 8, 0),
    "a base at a moment that no clock reads": ("2wq", 8, 0),
    "the same and an entry": ("2wqd", 8, 0),
    "the same in the first format": ("1wQ", 8, 0),
    "a schedule that is none": ("2uf", 8, 0),
    "an illegal entry behind a base": ("2uqc", 185, 2),
    "an illegal entry behind two": ("2uqddc", 253, 4),
    "an illegal one of the first format behind a base": ("1uQDC", 209, 3),
    "an entry before the base's last moment": ("2uqy", 185, 2),
    "a deletion twice": ("2uqee", 227, 3),
    "many illegal entries": ("2uq*c1001", 185, 2),
    "an illegal entry and then nothing": ("2cx", 8, 0),
    "an illegal entry, a legal one and then nothing": ("2dcdx", 42, 1),
    "an illegal one of the first format and then nothing": ("1CDx", 8, 0),
    "an illegal entry behind a base and then nothing": ("2uqcdx", 185, 2),
    "an illegal entry and then an empty body": ("2c-", 8, 0),
    "an illegal entry and then a start": ("2ck", 8, 0),
    "a base at a moment that no clock reads and then nothing": ("2wqx", 8, 0),
    "such a base, an entry and then nothing": ("2wqdx", 8, 0),
    "a schedule that is none and then nothing": ("2ufdx", 8, 0),
    "nothing and then an illegal entry": ("2dxc", 42, 1),
    "nothing and then an illegal entry behind a base": ("2uqdxc", 219, 3),
    "nothing twice": ("2dxx", 42, 1),
    "an entry more than can be counted and then nothing": ("2mdx", 46, 1),
    "an entry more than can be counted": ("2md", 46, 1),
}

# Two entries of the first format, `1AB`, of which one byte is another: its place, the byte, and what comes.
SPOILED = {
    "one entry and a closed gate": (37, 0, "secrets 0 versions 0 entries 1, cut 29 38, migrated 38 47"),
    "no entry behind a closed gate": (8, 0, "secrets 0 versions 0 entries 0, cut 58 9, migrated 9 47"),
    "a moment past the last": (13, 1, (8, 0)),
    "no act": (29, 17, (8, 0)),
    "an act of the second format": (29, 15, (8, 0)),
    "a truth value that is 2": (30, 2, (8, 0)),
    "an option that is 2": (31, 2, (8, 0)),
    "a text that is not UTF-8 in the second entry": (65, 0xFF, (37, 1)),
    "a byte behind the second entry": (64, 0, (37, 1)),
    "a text past the end of the second entry": (64, 2, (37, 1)),
    "an open gate at the end": (66, 1, (66, 2)),
}

# Bytes of the secret of which a rotation is under way (tools/hand_bodies.py): a body, a place in it, and the byte that
# stands there instead. Each leaves bodies that spell no rows.
ROWS_CHANGED = {
    "another start": (0, 0, 0xF2),
    "another secret": (1, 0, 0xF4),
    "another version": (2, 0, 0xF2),
    "a secret more is due": (0, 32, 2),
    "no secret is due": (0, 32, 0),
    "very many secrets are due": (0, 25, 0xFF),
    "no ARN": (1, 13, ord("b")),
    "no name": (1, 78, ord(":")),
    "an option of a secret that is 2": (1, 95, 2),
    "a tag more": (1, 104, 1),
    "very many tags": (1, 101, 0xFF),
    "a version more is due": (1, 112, 3),
    "one version is due": (1, 112, 1),
    "very many versions are due": (1, 105, 0xFF),
    "a label more": (1, 124, 3),
    "no label": (1, 129, 0xFF),
    "no token": (1, 143, ord(" ")),
    "no truth value": (1, 230, 2),
    "a schedule that is no text": (1, 238, 0xFF),
    "a region more": (1, 269, 3),
    "a region that is no text": (1, 274, 0xFF),
    "no step": (1, 335, 0),
    "a fifth step": (1, 335, 5),
    "no kind of value": (2, 56, 3),
    "made by what": (2, 62, 2),
}

# A root, and how many entries the file has that it names: the first has one, the second two.
ROOTS = [(b"", 1), (b"\0", 1), (b"\1", 2), (b"\2", 1), (b"\xff", 1), (b"\1\0", 2), (b"\0\1", 1), (b"1", 1)]

# A file of a base and two entries, its gates, and how long it is.
WHOLE, GATES, LENGTH = "2krvqab", [8, 46, 235, 302, 441, 475, 509], 510
# What an older run left in the file that does not count.
OTHER = "1" + "B" * 16
# Roots that name each file, with a byte behind or without. Only the first byte is ever written.
NAMED = {0: [b"", b"\7\1", b"\0"], 1: [b"\1", b"\1\0"]}


class Case(collections.namedtuple("Case", "files counts damage")):
    """The files of a folder, and what comes: the counts and what the opening did, or a place and a number."""

    def told(self):
        """The code, the first line on standard output, and the lines on standard error."""
        if self.damage:
            place, number = self.damage
            damage = f"the journal is damaged at byte {place}, in the entry of number {number}, counted from 0"
            return 3, "", [*self.cut(), damage, "status 3"]
        counts, *did = self.counts.split(", ")
        return 0, counts, [line for words in did for line in self.line(*words.split())]

    def number(self):
        return formats.named(self.files[2])

    def line(self, what, one, other):
        old, new = (f"journal-{number}" for number in (self.number(), 1 - self.number()))
        if what == "cut":
            return [f"{one} bytes behind the last whole record of {old} are cut off, from byte {other} on"]
        made = "a checkpoint was made" if what == "checkpoint" else "the journal was migrated"
        return [f"{made}: {old} had {one} bytes, {new} has {other}"]

    def cut(self):
        return self.line(*self.counts.split()) if self.counts else []


def body_of(letter):
    return bytes.fromhex(LETTERS[letter])


def record(body):
    return b"\1" + entries.octets(body)


def file_of(parts):
    """The bytes of a file of these parts."""
    once, _, often = parts.partition("*")
    made = {"1": b"SMJRNL01", "2": b"SMJRNL02", "3": b"SMJRNL03", ".": b"\0"}
    data = b"".join(made[part] if part in made else record(body_of(part)) for part in once)
    return data + (record(body_of(often[0])) * int(often[1:]) if often else b"") + b"\0"


def files_with(data, turn):
    """The files of a folder with this one, in either place by turns, beside what an older run left."""
    number = turn % 2
    journals = [file_of(OTHER), file_of(OTHER)]
    journals[number] = data
    return *journals, NAMED[number][turn // 2 % len(NAMED[number])]


def with_byte(data, place, byte):
    return data[:place] + bytes([byte]) + data[place + 1 :]


def rotating():
    return [bytes.fromhex(digits) for digits, _ in hand_bodies.ROTATING]


def spelled_rows():
    """The files of bases by hand of which a byte is another one, and what comes."""
    yield "a secret that is rotating", formats.journal(rotating(), 2), "secrets 1 versions 2 entries 3", None
    for name, (at, spot, byte) in ROWS_CHANGED.items():
        bodies = rotating()
        bodies[at] = with_byte(bodies[at], spot, byte)
        yield name, formats.journal(bodies, 2), None, (8, 0)
    for at, _ in enumerate(rotating()):
        bodies = rotating()
        for end in (0, 1, len(bodies[at]) // 2, len(bodies[at]) - 1):
            cut = [*bodies[:at], bodies[at][:end], *bodies[at + 1 :]]
            yield f"body {at} cut at {end}", formats.journal(cut, 2), None, (8, 0)


def large():
    """Bases of as many things as may be, and hostile ones that are told soon."""
    many = model.SECRETS_LIMIT
    same = [flawed.bare(serial, "a") for serial in range(many)]
    differ = [flawed.bare(serial, f"s{serial}") for serial in range(many)]
    labels = [("AWSCURRENT", flawed.token(1))]
    versions = flawed.changed(flawed.bare(0, "a"), values=["v"] * model.VERSIONS_LIMIT, labels=labels)
    labelled = flawed.changed(flawed.full(4), labels=flawed.full(4).row.labels + labels * 20000)
    return {
        "as many secrets as there may be": (flawed.base(*differ, following=many), f"secrets {many} versions 0 entries 7"),
        "as many of one name": (flawed.base(*same, following=many), None),
        "as many versions as there may be": (flawed.base(versions), "secrets 1 versions 1000 entries 7"),
        "one label many times": (flawed.base(labelled), None),
    }


def files():
    """The bytes of each file, by its name, with the counts and the damage."""
    for name, (parts, counts) in OPENED.items():
        yield name, file_of(parts), counts, None
    for name, (parts, *damage) in DAMAGED.items():
        yield name, file_of(parts), None, damage
    yield "rows behind which something is cut", file_of("2kr.vq"), "cut 207 236", (8, 0)
    for name, (place, byte, came) in SPOILED.items():
        opened = isinstance(came, str)
        yield name, with_byte(file_of("1AB"), place, byte), came if opened else None, None if opened else came
    yield from spelled_rows()
    for name, (base, counts) in large().items():
        yield name, formats.journal(formats.spelled_base(base, 2), 2), counts, None if counts else (8, 0)


def near_gates():
    """The lengths at which a file is cut: each near a gate, and some between."""
    near = {gate + more for gate, more in itertools.product(GATES, range(-1, 7))}
    return sorted(length for length in near | set(range(0, LENGTH, 16)) if length < LENGTH)


def cut_to(length):
    """What comes of the file cut to this length: nothing is in it, or it is damaged at the last gate that is left."""
    if length <= 9:
        return "secrets 0 versions 0 entries 0", None
    number = max(number for number, gate in enumerate(GATES) if gate < length)
    return None, (GATES[number], number)


def cuts():
    """A file that is cut, where the root names it, and where it names the other one."""
    data, other = file_of(WHOLE), file_of("2a")
    for length in near_gates():
        yield f"cut to {length} bytes", Case((other, data[:length], b"\1"), *cut_to(length))
        yield f"beside {length} bytes", Case((other, data[:length], b""), "secrets 0 versions 0 entries 1", None)


def table():
    """Each case by its name."""
    cases = {name: Case(files_with(data, turn), *came) for turn, (name, data, *came) in enumerate(files())}
    for root, count in ROOTS:
        counts = f"secrets 0 versions 0 entries {count}"
        cases[f"the root {root.hex() or 'without a byte'}"] = Case((file_of("2a"), file_of("2ab"), root), counts, None)
    return cases | dict(cuts())
