"""A second definition of what the program answers, to compare it with.

It is written from the rules of the product (docs/RULES.md, docs/USING.md) alone, in another language and shape than the program and its
specifications: a dictionary of versions and a list of labels for each secret, exceptions for refusals, Python's own JSON. It knows one account, a
clock that reads 1700000000 unless it is set, random bytes that count up from 0, and the rotator that changes the password in a JSON text. Each entry
of a journal does once more what it did, by the functions that answer messages; tools/stores.py opens the files that have them.
"""

import base64
import binascii
import collections
import copy
import datetime
import hashlib
import hmac
import json
import re
import string
import uuid

import crons
import entries
import formats

from formats import ARN, NAME, STAGES, TOKEN, Entry, Job, Rules

NOW = entries.MOMENT
MESSAGE_LIMIT = 1000
# How many steps of rotations are made at most after a message.
TURN_LIMIT = 100
HEAD_LIMIT = 16384
SECRETS_LIMIT = 10000
VERSIONS_LIMIT = 1000
# How many replica regions a secret has at most, and a request names.
REGIONS_LIMIT = 20
# A serial, or a count of entries, that is never given.
NO_NUMBER = 2**64 - 1
FIELD_LIMIT = 64
BODY_LIMIT = 524288

AWS_LABELS = {"AWSCURRENT", "AWSPREVIOUS", "AWSPENDING"}
SUFFIX_CHARACTERS = "ABCDEFGHIJKLMNOPQRSTUVWXYZabcdefghijklmnopqrstuvwxyz0123456789"
ARN_BEGINNING = "arn:aws:secretsmanager:us-east-1:000000000000:secret:"

# The members of each operation: a name, with a star where it has to be there, and its type.
MEMBERS = {
    "BatchGetSecretValue": "Filters filters, MaxResults integer, NextToken text, SecretIdList texts",
    "CancelRotateSecret": "SecretId* text",
    "CreateSecret": "AddReplicaRegions regions, ClientRequestToken text, Description text, KmsKeyId text, Name* text, SecretBinary bytes,"
    " SecretString text, Tags tags",
    "DeleteResourcePolicy": "SecretId* text",
    "DeleteSecret": "ForceDeleteWithoutRecovery truth, RecoveryWindowInDays integer, SecretId* text",
    "DescribeSecret": "SecretId* text",
    "GetRandomPassword": "ExcludeCharacters text, ExcludeLowercase truth, ExcludeNumbers truth, ExcludePunctuation truth,"
    " ExcludeUppercase truth, IncludeSpace truth, PasswordLength integer, RequireEachIncludedType truth",
    "GetResourcePolicy": "SecretId* text",
    "GetSecretValue": "SecretId* text, VersionId text, VersionStage text",
    "ListSecretVersionIds": "IncludeDeprecated truth, MaxResults integer, NextToken text, SecretId* text",
    "ListSecrets": "Filters filters, IncludePlannedDeletion truth, MaxResults integer, NextToken text, SortOrder text",
    "PutResourcePolicy": "BlockPublicPolicy truth, ResourcePolicy* text, SecretId* text",
    "PutSecretValue": "ClientRequestToken text, SecretBinary bytes, SecretId* text, SecretString text, VersionStages texts",
    "RemoveRegionsFromReplication": "RemoveReplicaRegions* texts, SecretId* text",
    "ReplicateSecretToRegions": "AddReplicaRegions* regions, SecretId* text",
    "RestoreSecret": "SecretId* text",
    "RotateSecret": "ClientRequestToken text, RotateImmediately truth, RotationLambdaARN text, RotationRules rules, SecretId* text",
    "StopReplicationToReplica": "SecretId* text",
    "TagResource": "SecretId* text, Tags* tags",
    "UntagResource": "SecretId* text, TagKeys* texts",
    "UpdateSecret": "ClientRequestToken text, Description text, KmsKeyId text, SecretBinary bytes, SecretId* text, SecretString text",
    "UpdateSecretVersionStage": "MoveToVersionId text, RemoveFromVersionId text, SecretId* text, VersionStage* text",
    "ValidateResourcePolicy": "ResourcePolicy* text, SecretId text",
}

# Truth values that are true where they are absent.
TRUE_IF_ABSENT = {"RequireEachIncludedType", "RotateImmediately"}
# What is refused of each secret, since all are the account's own.
ALWAYS_REFUSED = {"StopReplicationToReplica"}
# What works on a secret that is scheduled for deletion, beside a forced deletion.
ON_SCHEDULED = {"DescribeSecret", "GetResourcePolicy", "ListSecretVersionIds", "RestoreSecret", "ValidateResourcePolicy"}

PAGE_TOKEN = re.compile(r"[sv](0|[1-9][0-9]*)")
REGION = re.compile(r"[a-z0-9-]{1,32}")


class Refusal(Exception):
    """A refused request: the error's name, its message, and the kind of the message, in which `_` stands for what differs."""

    def __init__(self, error, message, kind=None):
        self.error = error
        self.message = message
        self.kind = kind or message


# The refusals whose message says all, and their errors' names.
ERRORS = {
    "AWSCURRENT can be moved but not removed": "InvalidParameterException",
    "NextToken is not in its form": "InvalidNextTokenException",
    "body is not a JSON object": "SerializationException",
    "no credential": "AccessDeniedException",
    "no statement allows": "AccessDeniedException",
    "replica is read-only": "InvalidRequestException",
    "secret has no current value": "InvalidRequestException",
    "secret is not a replica": "InvalidRequestException",
    "secret not found": "ResourceNotFoundException",
    "signature: Authorization": "AccessDeniedException",
    "signature: Date": "AccessDeniedException",
    "signature: SignedHeaders": "AccessDeniedException",
    "signature: Signature": "AccessDeniedException",
    "unknown operation": "UnknownOperationException",
    "version and label differ": "InvalidRequestException",
    "version not found": "ResourceNotFoundException",
}


def refusal(message):
    return Refusal(ERRORS[message], message)


def bad_member(name):
    return Refusal("SerializationException", f"{name} is missing or of another type", "_ is missing or of another type")


def bad_form(name):
    return Refusal("InvalidParameterException", f"{name} is not in its form", "_ is not in its form")


# Every kind of refusal that the operations can give.
KINDS = set(ERRORS) | {
    "_ is missing or of another type",
    "_ is not in its form",
    "secret _ exists",
    "version _ has another value",
    "label is held by _",
    "label is held by no version",
    "secret is scheduled for deletion at _",
    "limit of 20 labels",
    "limit of 20 regions",
    "limit of 50 tags",
    "limit of 1000 versions",
    "limit of 10000 secrets",
    "limit of 1000000 entries",
    "version _ has no value",
    "version _ exists",
    "AWSPENDING is held by _",
    "statement _: _",
    "statement _ is public",
    "denied by statement _",
    "unknown key _",
    "signature: Authorization",
    "signature: SignedHeaders",
    "signature: Date",
    "signature: Signature",
    "http: body too long",
    "http: chunked",
    "http: head",
    "http: head too long",
    "http: length",
}


def scheduled(date):
    message = f"secret is scheduled for deletion at {date}"
    return Refusal("InvalidRequestException", message, "secret is scheduled for deletion at _")


def limit_of(count, what):
    return Refusal("LimitExceededException", f"limit of {count} {what}")


# ---- members


def is_label(text):
    return 1 <= len(text) <= 256


def is_value(value):
    return len(value.encode() if isinstance(value, str) else value) <= 65536


def is_description(text):
    return len(text) <= 2048


def are_tags(tags):
    fits = all(1 <= len(key) <= 128 and not key.startswith("aws:") and len(value) <= 256 for key, value in tags)
    return fits and len({key for key, _ in tags}) == len(tags)


def are_regions(names):
    return len(names) <= REGIONS_LIMIT and all(map(REGION.fullmatch, names))


def is_secret_id(text):
    return bool((ARN if text.startswith("arn:") else NAME).fullmatch(text))


def is_token(text):
    return bool(TOKEN.fullmatch(text))


def is_filter(given):
    key, values = given
    return key in FILTERED and 1 <= len(values) <= 10 and all(len(value) <= 512 for value in values)


def is_truth(value):
    return True


def are_rules(rules):
    if rules.schedule is None:
        return rules.days is None or 1 <= rules.days <= 1000
    return rules.days is None and crons.is_expression(rules.schedule)


FORMS = {
    "AddReplicaRegions": are_regions,
    "ClientRequestToken": is_token,
    "Description": is_description,
    "ExcludeCharacters": lambda text: len(text) <= 4096,
    "ExcludeLowercase": is_truth,
    "ExcludeNumbers": is_truth,
    "ExcludePunctuation": is_truth,
    "ExcludeUppercase": is_truth,
    "Filters": lambda filters: len(filters) <= 10 and all(map(is_filter, filters)),
    "ForceDeleteWithoutRecovery": is_truth,
    "IncludeDeprecated": is_truth,
    "IncludePlannedDeletion": is_truth,
    "IncludeSpace": is_truth,
    "KmsKeyId": is_description,
    "MoveToVersionId": is_token,
    "Name": lambda text: bool(NAME.fullmatch(text)),
    "PasswordLength": lambda length: 1 <= length <= 4096,
    "RecoveryWindowInDays": lambda days: 7 <= days <= 30,
    "BlockPublicPolicy": is_truth,
    "RemoveFromVersionId": is_token,
    "RemoveReplicaRegions": are_regions,
    "RequireEachIncludedType": is_truth,
    "ResourcePolicy": lambda text: 1 <= len(text) <= 20480,
    "RotateImmediately": is_truth,
    "RotationLambdaARN": is_description,
    "RotationRules": are_rules,
    "SecretBinary": is_value,
    "SecretId": is_secret_id,
    "SecretIdList": lambda ids: 1 <= len(ids) <= 20,
    "SecretString": is_value,
    "SortOrder": lambda order: order in ("asc", "desc"),
    "TagKeys": lambda keys: len(keys) <= 50 and all(1 <= len(key) <= 128 for key in keys),
    "Tags": are_tags,
    "VersionId": is_token,
    "VersionStage": is_label,
    "VersionStages": lambda labels: 1 <= len(labels) <= 20 and all(map(is_label, labels)),
}


def no_constant(text):
    raise ValueError(text)


def number(text):
    value = float(text)
    if value in (float("inf"), float("-inf")):
        raise ValueError(text)
    return value


def integer(text):
    # One past all doubles is refused, and `-0` is no integer.
    number(text)
    return int(text) if text != "-0" else -0.0


class Members(dict):
    """The members of an object, of which the last of a name counts. Its depth is that of all that stood there."""

    def __init__(self, pairs):
        super().__init__(pairs)
        for name, value in pairs:
            stand_in_utf8([name, value])
        self.depth = 1 + max((depth(value) for _, value in pairs), default=0)


def stand_in_utf8(value):
    # Half of a surrogate pair can't be written again.
    if isinstance(value, str):
        value.encode()
    elif isinstance(value, list):
        for item in value:
            stand_in_utf8(item)


def depth(value):
    if isinstance(value, Members):
        return value.depth
    if isinstance(value, list):
        return 1 + max(map(depth, value), default=0)
    return 0


def read_json(body):
    read = json.loads(
        body.decode("utf-8"),
        object_pairs_hook=Members,
        parse_constant=no_constant,
        parse_float=number,
        parse_int=integer,
    )
    stand_in_utf8(read)
    if depth(read) > 127:
        raise ValueError(body)
    return read


def object_of(body):
    if not body:
        return {}
    try:
        read = read_json(body)
    except (ValueError, RecursionError):
        raise refusal("body is not a JSON object")
    if not isinstance(read, dict):
        raise refusal("body is not a JSON object")
    return {name: value for name, value in read.items() if value is not None}


class Wrong(Exception):
    """A value is of another type."""


class LeftOut(Exception):
    """A value is of its type, and asks for what is left out."""


def of_type(kind):
    def read(value):
        if (dict if isinstance(value, Members) else type(value)) is not kind:
            raise Wrong
        return value

    return read


def read_integer(value):
    if not -(2**63) <= of_type(int)(value) < 2**63:
        raise Wrong
    return value


def read_bytes(value):
    try:
        decoded = base64.b64decode(of_type(str)(value), validate=True)
    except (binascii.Error, ValueError):
        raise Wrong
    if base64.b64encode(decoded).decode() != value:
        raise Wrong
    return decoded


def read_list(read_item):
    return lambda value: [read_item(item) for item in of_type(list)(value)]


def inner(value, name, read, absent=None):
    """A member of an object in a member. Without a value for absent ones it has to be there."""
    found = of_type(dict)(value).get(name)
    if found is None and absent is None:
        raise Wrong
    return absent if found is None else read(found)


def read_tag(value):
    return inner(value, "Key", of_type(str)), inner(value, "Value", of_type(str), "")


def read_filter(value):
    return inner(value, "Key", of_type(str)), inner(value, "Values", read_list(of_type(str)))


def read_rules(value):
    days = inner(value, "AutomaticallyAfterDays", lambda days: [read_integer(days)], [])
    if value.get("Duration") is not None:
        raise LeftOut
    schedule = inner(value, "ScheduleExpression", lambda schedule: [of_type(str)(schedule)], [])
    return Rules(*days or [None], *schedule or [None])


def read_region(value):
    return inner(value, "Region", of_type(str))


READERS = {
    "bytes": read_bytes,
    "filters": read_list(read_filter),
    "integer": read_integer,
    "regions": read_list(read_region),
    "rules": read_rules,
    "tags": read_list(read_tag),
    "text": of_type(str),
    "texts": read_list(of_type(str)),
    "truth": of_type(bool),
}


def read_member(given, name, kind):
    """The member as a list of one pair, or of none where it is not there."""
    wanted = name.endswith("*")
    name = name.rstrip("*")
    if name not in given:
        if wanted:
            raise bad_member(name)
        return []
    try:
        return [(name, READERS[kind](given[name]))]
    except Wrong:
        raise bad_member(name)
    except LeftOut:
        raise bad_form(name)


def members_of(operation, body):
    given = object_of(body)
    members = [pair for member in MEMBERS[operation].split(", ") for pair in read_member(given, *member.split(" "))]
    return dict(members)


def value_in(members):
    """The text or the bytes that are given as the value, or None."""
    return members.get("SecretString", members.get("SecretBinary"))


def needed(operation, members):
    without_token = "ClientRequestToken" not in members
    if operation == "CreateSecret":
        return 22 if value_in(members) is not None and without_token else 6
    if operation == "UpdateSecret":
        return 16 if value_in(members) is not None and without_token else 0
    if operation == "GetRandomPassword":
        length = members.get("PasswordLength", 32)
        return 4 * length if 1 <= length <= 4096 else 0
    if operation == "RotateSecret":
        return 16 if without_token and members.get("RotateImmediately", True) else 0
    return 16 if operation == "PutSecretValue" and without_token else 0


def test_form(operation, name, value):
    """The forms of MaxResults and NextToken are the operation's."""
    if name == "NextToken":
        kind = "v" if operation == "ListSecretVersionIds" else "s"
        if not PAGE_TOKEN.fullmatch(value) or value[0] != kind or int(value[1:]) >= 2**64:
            raise refusal("NextToken is not in its form")
    elif name == "MaxResults":
        if not 1 <= value <= page_limit(operation):
            raise bad_form(name)
    elif not FORMS[name](value):
        raise bad_form(name)


def page_limit(operation):
    return 20 if operation == "BatchGetSecretValue" else 100


def test_forms(operation, members):
    for name, value in members.items():
        test_form(operation, name, value)
    if operation == "BatchGetSecretValue":
        if ("SecretIdList" in members) == ("Filters" in members):
            raise bad_form("SecretIdList")
        if "SecretIdList" in members and {"MaxResults", "NextToken"} & members.keys():
            raise bad_form("MaxResults")
    if operation == "GetRandomPassword":
        classes = classes_of(members)
        if not classes:
            raise bad_form("ExcludeCharacters")
        if members.get("RequireEachIncludedType", True) and members.get("PasswordLength", 32) < len(classes):
            raise bad_form("PasswordLength")
    if {"SecretBinary", "SecretString"} <= members.keys() or operation == "PutSecretValue" and value_in(members) is None:
        raise bad_form("SecretString")
    if members.get("ForceDeleteWithoutRecovery") and "RecoveryWindowInDays" in members:
        raise bad_form("ForceDeleteWithoutRecovery")
    if operation == "UpdateSecretVersionStage" and not {"MoveToVersionId", "RemoveFromVersionId"} & members.keys():
        raise bad_form("MoveToVersionId")
    if operation == "PutResourcePolicy":
        policy_of(members["ResourcePolicy"])


def classes_of(members):
    """The classes of characters of a password."""
    classes = [string.ascii_lowercase, string.ascii_uppercase, string.digits, string.punctuation]
    excluded = ["ExcludeLowercase", "ExcludeUppercase", "ExcludeNumbers", "ExcludePunctuation"]
    taken = [characters for characters, name in zip(classes, excluded) if not members.get(name)]
    taken += [" "] if members.get("IncludeSpace") else []
    left = ["".join(it for it in characters if it not in members.get("ExcludeCharacters", "")) for characters in taken]
    return [characters for characters in left if characters]


def password(members, drawn):
    length, classes = members.get("PasswordLength", 32), classes_of(members)
    words = [256 * drawn[2 * place] + drawn[2 * place + 1] for place in range(2 * length)]
    each = classes if members.get("RequireEachIncludedType", True) else []
    made = []
    for place in range(length):
        characters = each[place] if place < len(each) else "".join(classes)
        made.insert(words[length + place] % (place + 1), characters[words[place] % len(characters)])
    return {"RandomPassword": "".join(made)}


def drawn_token(drawn):
    return str(uuid.UUID(bytes=bytes(drawn), version=4))


# ---- policies

STATEMENT_MEMBERS = ("Action", "Condition", "Effect", "Principal", "Resource", "Sid")
OPERATORS = ("StringEquals", "StringLike", "StringNotEquals")
PERSON_ARN = re.compile(r"arn:aws:iam::[0-9]{12}:[!-~]{1,128}")
KEY_OF_TAG = "secretsmanager:ResourceTag/"
KEYS = {"secretsmanager:Name", "secretsmanager:SecretId", "secretsmanager:VersionId", "secretsmanager:VersionStage"}


class NoPart(Exception):
    """A part of a policy is not in its form."""


def part_that(fits):
    if not fits:
        raise NoPart


def texts_in(value):
    """A text, or a list of at least one, as a list."""
    texts = value if isinstance(value, list) else [value]
    part_that(texts and all(isinstance(text, str) for text in texts))
    return texts


def patterns_in(value):
    patterns = texts_in(value)
    part_that(all(patterns))
    return patterns


def principals_in(value):
    if value == "*":
        return ["*"]
    part_that(isinstance(value, dict) and list(value) == ["AWS"])
    principals = texts_in(value["AWS"])
    part_that(all(it == "*" or re.fullmatch("[0-9]{12}", it) or PERSON_ARN.fullmatch(it) for it in principals))
    return principals


def condition_in(value):
    """Operators, keys and texts."""
    part_that(isinstance(value, dict) and all(name in OPERATORS and isinstance(tests, dict) for name, tests in value.items()))
    tests = [(name, key, texts_in(texts)) for name, found in value.items() for key, texts in found.items()]
    part_that(all(key in KEYS or key.startswith(KEY_OF_TAG) and key != KEY_OF_TAG for _, key, _ in tests))
    return tests


def malformed(number, name):
    return Refusal("MalformedPolicyDocumentException", f"statement {number}: {name}", "statement _: _")


def check_members(number, value, known):
    unknown = sorted(value.keys() - set(known), key=str.encode)
    if unknown:
        raise malformed(number, unknown[0])


def text_in(value):
    part_that(isinstance(value, str))
    return value


def effect_in(value):
    part_that(value in ("Allow", "Deny"))
    return value


# The members of a statement in the order in which they are tested, and whether they have to be there.
PARTS = [
    ("Sid", text_in, False),
    ("Effect", effect_in, True),
    ("Principal", principals_in, True),
    ("Action", patterns_in, True),
    ("Resource", patterns_in, True),
    ("Condition", condition_in, False),
]


def statement_of(number, value):
    if not isinstance(value, dict):
        raise malformed(number, "Statement")
    check_members(number, value, STATEMENT_MEMBERS)
    statement = {"HasCondition": bool(value.get("Condition"))}
    for name, read, wanted in PARTS:
        try:
            part_that(name in value or not wanted)
            statement[name] = read(value[name]) if name in value else []
        except NoPart:
            raise malformed(number, name)
    return statement


def policy_of(text):
    """The statements of a policy's text."""
    try:
        document = read_json(text.encode())
    except (ValueError, RecursionError):
        raise malformed(0, "policy")
    if not isinstance(document, dict):
        raise malformed(0, "policy")
    check_members(0, document, ("Id", "Statement", "Version"))
    if document.get("Version") != "2012-10-17":
        raise malformed(0, "Version")
    if not isinstance(document.get("Id", ""), str):
        raise malformed(0, "Id")
    statements = document.get("Statement")
    statements = [statements] if isinstance(statements, dict) else statements
    if not isinstance(statements, list) or not statements:
        raise malformed(0, "Statement")
    return [statement_of(number, value) for number, value in enumerate(statements, 1)]


def public_statement(statements):
    """The number of the first statement that allows everybody something, or None."""
    public = (
        number for number, it in enumerate(statements, 1)
        if it["Effect"] == "Allow" and "*" in it["Principal"] and not it["HasCondition"]
    )
    return next(public, None)


def is_public(number):
    return Refusal("PublicPolicyException", f"statement {number} is public", "statement _ is public")


def is_like(text, pattern):
    """Whether a pattern with `*` and `?` matches a text: a walk over all ways at once."""
    places = {0}
    for letter in pattern:
        if letter == "*":
            places = set(range(min(places), len(text) + 1)) if places else places
        else:
            places = {at + 1 for at in places if at < len(text) and letter in ("?", text[at])}
    return len(text) in places


def lowered(text):
    return "".join(letter.lower() if letter.isascii() else letter for letter in text)


class Question:
    """What a person asks of a secret: the action, and what the request says of the secret and of its version."""

    def __init__(self, person, operation, secret, members):
        self.person, self.action, self.secret = person, f"secretsmanager:{operation}", secret
        self.values = {"secretsmanager:Name": secret.name, "secretsmanager:SecretId": members["SecretId"]}
        if operation in ("GetSecretValue", "UpdateSecretVersionStage"):
            self.values |= {f"secretsmanager:{name}": members[name] for name in ("VersionId", "VersionStage") if name in members}
        if operation == "GetSecretValue" and not {"VersionId", "VersionStage"} & members.keys():
            self.values["secretsmanager:VersionStage"] = "AWSCURRENT"
        self.values |= {KEY_OF_TAG + key: value for key, value in secret.tags}

    def names(self, principal):
        account = self.person.arn[13:25]
        return principal in ("*", account, f"arn:aws:iam::{account}:root", self.person.arn)

    def meets(self, operator, key, texts):
        value = self.values.get(key)
        if operator == "StringNotEquals":
            return value not in texts
        if operator == "StringEquals":
            return value in texts
        return value is not None and any(is_like(value, text) for text in texts)

    def is_matched(self, statement):
        return (
            any(map(self.names, statement["Principal"]))
            and any(is_like(lowered(self.action), lowered(pattern)) for pattern in statement["Action"])
            and any(is_like(self.secret.arn, pattern) for pattern in statement["Resource"])
            and all(self.meets(*test) for test in statement["Condition"])
        )


def admit(person, operation, secret, members):
    statements = policy_of(secret.policy) if secret is not None and secret.policy is not None else []
    question = Question(person, operation, secret, members) if statements else None
    matching = [(number, it["Effect"]) for number, it in enumerate(statements, 1) if question.is_matched(it)]
    denying = [number for number, effect in matching if effect == "Deny"]
    if denying:
        raise Refusal("AccessDeniedException", f"denied by statement {denying[0]}", "denied by statement _")
    if not person.is_full and not matching:
        raise refusal("no statement allows")


# ---- people

Person = collections.namedtuple("Person", "key is_full arn")
ROOT = Person("", True, "arn:aws:iam::000000000000:root")
NOBODY = Person("", True, "")
LINE = re.compile(rb"([A-Za-z0-9_]{1,128}) (full|guest) (arn:aws:iam::[0-9]{12}:[!-~]{1,128})(?: ([!-~]{1,128}))?")
CREDENTIAL = re.compile(rb"([A-Za-z0-9_]{1,128})/")


class BadLine(Exception):
    """A line of a people text breaks its grammar."""


class People:
    """Who may ask. With an empty text everybody is the account's root."""

    def __init__(self, text):
        self.is_open = not text
        self.persons, self.secrets = {}, {}
        for number, line in enumerate(text.split(b"\n"), 1):
            if not line or line.startswith(b"#"):
                continue
            found = LINE.fullmatch(line)
            if not found or found[1] in self.persons:
                raise BadLine(number)
            self.persons[found[1]] = Person(found[1].decode(), found[2] == b"full", found[3].decode())
            self.secrets[found[1]] = found[4]

    def caller(self, message):
        if self.is_open:
            return ROOT
        _, found, rest = (message.first(b"authorization") or b"").partition(b"Credential=")
        key = CREDENTIAL.match(rest)
        if not found or not key:
            raise refusal("no credential")
        if key[1] not in self.persons:
            raise Refusal("AccessDeniedException", f"unknown key {key[1].decode()}", "unknown key _")
        if self.secrets[key[1]] is not None:
            check_signature(self.secrets[key[1]], message)
        return self.persons[key[1]]


# ---- signatures

CREDENTIAL_AND_SCOPE = rb"AWS4-HMAC-SHA256 Credential=[A-Za-z0-9_]{1,128}/([0-9]{8}/[a-z0-9-]{1,64}/[a-z0-9-]{1,64}/aws4_request)"
AUTHORIZATION = re.compile(CREDENTIAL_AND_SCOPE + rb", *SignedHeaders=([^,]*), *Signature=([0-9a-f]{64})", re.DOTALL)
SIGNED_NAME = re.compile(rb"[!#-'*+.0-9^-z|~-]+")
MOMENT = re.compile(rb"[0-9]{8}T[0-9]{6}Z")
# These fields are signed always, and the one with the signature never.
ALWAYS_SIGNED = {b"host", b"x-amz-date", b"x-amz-target"}


def authenticated(key, text):
    return hmac.new(key, text, hashlib.sha256).digest()


def canonical(message, names):
    """The text of a message whose digest is signed."""
    lines = [b"%s:%s\n" % (name, b",".join(re.sub(rb" +", b" ", value.strip(b" \t")) for value in message.values(name))) for name in names]
    body = hashlib.sha256(message.body).hexdigest().encode()
    return b"\n".join([message.method, message.path, b"", b"".join(lines), b";".join(names), body])


def signature(secret, scope, moment, message, names):
    """The digits by which a secret signs these fields of a message, and the rest of it."""
    text = b"\n".join([b"AWS4-HMAC-SHA256", moment, scope, hashlib.sha256(canonical(message, names)).hexdigest().encode()])
    key = b"AWS4" + secret
    for part in scope.split(b"/"):
        key = authenticated(key, part)
    return authenticated(key, text).hex().encode()


def check_signature(secret, message):
    """Refuses a message that the secret didn't sign, by the first part that is wrong."""
    found = AUTHORIZATION.fullmatch(message.first(b"authorization") or b"")
    if not found:
        raise refusal("signature: Authorization")
    scope, names, digits = found[1], found[2].split(b";"), found[3]
    may = all(SIGNED_NAME.fullmatch(name) and message.values(name) for name in names) and names == sorted(set(names))
    if not may or not ALWAYS_SIGNED <= set(names) or b"authorization" in names:
        raise refusal("signature: SignedHeaders")
    moment = message.first(b"x-amz-date")
    if not MOMENT.fullmatch(moment) or moment[:8] != scope[:8]:
        raise refusal("signature: Date")
    if not hmac.compare_digest(digits, signature(secret, scope, moment, message, names)):
        raise refusal("signature: Signature")


# ---- rotation

def object_with_password(value):
    """The object that a value is a text of, with a text as its password and with whole numbers alone; or None."""
    try:
        found = read_json(value.encode()) if isinstance(value, str) else None
    except (ValueError, RecursionError):
        return None
    is_one = isinstance(found, dict) and isinstance(found.get("password"), str) and are_whole(found)
    return found if is_one else None


def are_whole(value):
    if isinstance(value, dict):
        return all(map(are_whole, value.values()))
    if isinstance(value, list):
        return all(map(are_whole, value))
    if isinstance(value, int) and not isinstance(value, bool):
        return -(2**63) <= value < 2**64
    return not isinstance(value, float)


def rotate_locally(job, current, pending):
    """What the local rotator answers: a value, or whether the step was done."""
    if job.stage == "createSecret":
        found = object_with_password(current)
        if found is None:
            return False
        return json.dumps(found | {"password": f"rotated-{job.token}"}, separators=(",", ":"), ensure_ascii=False, sort_keys=True)
    if job.stage == "finishSecret":
        return True
    found = object_with_password(pending)
    return found is not None and (job.stage == "setSecret" or len(found["password"]) >= 8)


# ---- secrets


# The texts of a secret that a filter's key speaks of.
FILTERED = {
    "name": lambda secret: [secret.name],
    "description": lambda secret: [secret.said["Description"]] if "Description" in secret.said else [],
    "tag-key": lambda secret: [key for key, _ in secret.tags],
    "tag-value": lambda secret: [value for _, value in secret.tags],
}


def holds(secret, given):
    key, values = given
    texts = FILTERED[key](secret)

    def one_begins(prefix):
        return any(text.startswith(prefix) for text in texts)

    return any(not one_begins(value[1:]) if value.startswith("!") else one_begins(value) for value in values)


def page(operation, members, items, descending=False):
    """The numbers of the items on the page, of those that are listed, and the member of the reply for the next page."""
    items = sorted(items, reverse=descending)
    if "NextToken" in members:
        last = int(members["NextToken"][1:])
        items = [number for number in items if (number < last if descending else number > last)]
    most = members.get("MaxResults", page_limit(operation))
    kind = "v" if operation == "ListSecretVersionIds" else "s"
    shown = items[:most]
    return shown, {"NextToken": f"{kind}{shown[-1]}"} if len(items) > most else {}


class Secret:
    def __init__(self, account, number, name, arn, tags):
        # Moments are the account's.
        self.account = account
        self.number = number
        self.name = name
        self.arn = arn
        self.tags = tags
        self.said = {}
        # The value of each version, or None where a rotation has made it and not filled it; when each was made, and its number.
        self.versions = {}
        self.dates = {}
        self.numbers = {}
        self.given = 0
        self.created = self.changed = account.moment
        # The versions that a rotation has made, and the attempt at which each was tested that one has finished.
        self.of_rotation = set()
        self.tested = {}
        self.labels = []
        self.deletion = None
        self.policy = None
        # The replica regions, in order of adding.
        self.regions = []
        self.is_rotated = False
        self.rules = Rules()
        self.next_rotation = None
        self.job = None

    def fill(self, version, value):
        """Gives a version its value, and makes it where it is not there."""
        if version not in self.versions:
            self.dates[version], self.numbers[version] = self.account.moment, self.given
            self.given += 1
        self.versions[version] = value

    def old_versions(self):
        """Those that need not be kept: they have no label, were made a day ago or earlier, and a hundred others are newer."""
        newest = sorted(self.numbers.values())[-100:]
        labelled = {version for _, version in self.labels}
        return [
            version for version in self.versions
            if version not in labelled and self.dates[version] + 86400 <= self.account.moment and self.numbers[version] not in newest
        ]

    def is_full(self):
        """No version may be added. Those don't count that are dropped with what is done."""
        counted = len(self.versions) - (len(self.old_versions()) if self.account.prunes else 0)
        return counted >= VERSIONS_LIMIT or self.given == NO_NUMBER

    def prune(self):
        """Drops the versions that need not be kept. Their tokens may be used again."""
        for version in self.old_versions():
            del self.versions[version], self.dates[version], self.numbers[version]
            self.of_rotation.discard(version)
            self.tested.pop(version, None)

    def holder(self, label):
        return next((version for held, version in self.labels if held == label), None)

    def labels_of(self, version):
        return sorted((label for label, on in self.labels if on == version), key=str.encode)

    def without(self, label):
        return [pair for pair in self.labels if pair[0] != label]

    def place(self, label, version):
        before = self.holder(label)
        self.labels = self.without(label) + [(label, version)]
        if label == "AWSCURRENT" and before not in (None, version):
            self.labels = self.without("AWSPREVIOUS") + [("AWSPREVIOUS", before)]

    def place_all(self, labels, version):
        """Places the labels in the order of their first occurrence, AWSCURRENT last, unless there are too many then."""
        before = self.labels
        for label in sorted(dict.fromkeys(labels), key=lambda label: label == "AWSCURRENT"):
            self.place(label, version)
        if len([label for label, _ in self.labels if label not in AWS_LABELS]) > 20:
            self.labels = before
            raise limit_of(20, "labels")

    def settle(self):
        """A job stays while its version waits to become the current one; one whose version has a value is past createSecret."""
        job = self.job
        if job is None:
            return
        waits = job.token in self.versions and self.holder("AWSPENDING") == job.token and self.holder("AWSCURRENT") != job.token
        if self.deletion is not None or not waits:
            self.job = None
        elif job.stage == "createSecret" and self.versions[job.token] is not None:
            self.job = job._replace(stage="setSecret", attempt=1)

    def current_value(self):
        return self.versions.get(self.holder("AWSCURRENT"))

    def is_due(self):
        """A rotation may start by itself, with a token that no version has."""
        if not self.is_rotated or self.next_rotation is None or self.next_rotation > self.account.moment:
            return False
        current, pending = self.holder("AWSCURRENT"), self.holder("AWSPENDING")
        return current is not None and pending in (None, current) and not self.is_full() and self.deletion is None

    def start(self, token):
        """Makes the version that a rotation fills, and the job that does it."""
        self.fill(token, None)
        self.of_rotation.add(token)
        self.place("AWSPENDING", token)
        self.job = Job(token, STAGES[0], 1, self.account.moment)

    def report(self, answer):
        """Does what an answer to the job's step leads to: a value, whether the step was done, or None where it failed."""
        job, moment = self.job, self.account.moment
        if job.stage == "createSecret" and isinstance(answer, (str, bytes)) and is_value(answer):
            self.fill(job.token, answer)
        elif answer is not True or job.stage == "createSecret":
            again = job._replace(attempt=job.attempt + 1, retry_at=moment + 60 * job.attempt)
            self.job = again if job.attempt < 5 else None
            return
        if job.stage == "finishSecret":
            self.place("AWSCURRENT", job.token)
            self.labels = self.without("AWSPENDING")
            self.tested[job.token] = job.tested
            self.said["LastRotatedDate"] = moment
            self.next_rotation = self.following_rotation()
            self.job = None
        else:
            tested = job.attempt if job.stage == "testSecret" else None
            self.job = Job(job.token, STAGES[STAGES.index(job.stage) + 1], 1, moment, tested)

    def following_rotation(self):
        days, schedule = self.rules
        if schedule is not None:
            return crons.next_of(self.account.moment, schedule)
        return None if days is None else self.account.moment + 86400 * days

    def say(self, members):
        """Keeps what is given of a description and a KMS key id."""
        self.said |= {name: members[name] for name in ("Description", "KmsKeyId") if name in members}

    def named(self):
        return {"ARN": self.arn, "Name": self.name}

    def replicas(self):
        """The replica regions as they are shown."""
        return [{"Region": region, "Status": "InProgress"} for region in self.regions]

    def replicas_if_some(self):
        return {"ReplicationStatus": self.replicas()} if self.regions else {}


class Illegal(Exception):
    """An entry of a journal would not have been made where it stands."""


class Account:
    """One account, which answers one message after the other. It counts what it reached: (operation, how it was answered).
    Its entries are spelled in a format."""

    def __init__(self, people=b"", edition=2):
        self.people = People(people)
        self.edition = edition
        self.claimed = set()
        self.secrets = []
        self.made = 0
        self.drawn = 0
        self.reached = collections.Counter()
        # How many entries are not kept, and those behind them, as they stand in a journal.
        self.before = 0
        self.entries = []
        # What the clock reads, the moment of the last entry, and that of what is done now.
        self.clock, self.last, self.moment = NOW, 0, NOW
        # Whether old versions are dropped with what is done, as with all that this program does, and from which secret.
        self.prunes, self.changed = True, None

    def restart(self):
        """The random bytes of a run begin anew, and the steps of rotations that were under way may be asked again."""
        self.drawn = 0
        self.claimed = set()

    def begin(self, moment):
        """Something is done at a moment: a secret is gone from its deletion date on."""
        self.moment = moment
        self.secrets = [secret for secret in self.secrets if secret.deletion is None or secret.deletion > moment]

    def begin_now(self):
        """Something is done now. Moments never fall."""
        self.begin(max(self.clock, self.last))

    def count(self):
        """How many entries were made."""
        return self.before + len(self.entries)

    def enter(self, person, drawn, act, fields, secret=None):
        """Keeps an entry, which changed a secret if one is named."""
        fields = renamed(as_counted(act, fields), OF_REGIONS.get(act), "Regions")
        entry = Entry(self.moment, person.key, bytes(drawn), self.prunes, act, fields, person.arn)
        self.entries.append(formats.spelled_entry(entry, self.edition))
        self.last = self.moment
        if secret is not None:
            secret.changed = self.moment
        self.changed = secret

    def finish(self):
        """What every change ends with: all secrets are settled, and then the one that was changed loses its old versions."""
        for secret in self.secrets:
            secret.settle()
        if self.prunes and self.changed is not None and self.changed.old_versions():
            self.changed.prune()
            self.reached["opened", "old versions"] += 1
        self.changed = None

    def draw(self, count):
        drawn = [(self.drawn + place) % 256 for place in range(count)]
        self.drawn += count
        return drawn

    def find(self, secret_id):
        if not secret_id.startswith("arn:"):
            return next((secret for secret in self.secrets if secret.name == secret_id), None)
        whole = [secret for secret in self.secrets if secret.arn == secret_id]
        short = [secret for secret in self.secrets if secret.arn[:-7] == secret_id]
        return next(iter(whole + short), None)

    def turn(self):
        """One step of the first rotation that is ready, else the start of one that is due; and whether there was one."""
        self.begin_now()
        for secret in self.secrets:
            job = secret.job
            if job is None or job.retry_at > self.moment or (secret.arn, job) in self.claimed:
                continue
            self.claimed.add((secret.arn, job))
            answer = rotate_locally(job, secret.current_value(), secret.versions[job.token])
            if self.count() == NO_NUMBER:
                return False
            if isinstance(answer, str) and not is_value(answer):
                answer = None
            self.report(secret, answer)
            self.reached["turn", f"{job.stage} {job.attempt}"] += 1
            return True
        due = [secret for secret in self.secrets if secret.is_due()]
        if not due:
            return False
        drawn = self.draw(16)
        startable = [secret for secret in due if drawn_token(drawn) not in secret.versions and self.count() < NO_NUMBER]
        for secret in startable[:1]:
            self.start(secret, drawn)
            self.reached["turn", "a start"] += 1
        return bool(startable)

    def start(self, secret, drawn):
        """Starts a due rotation, by nobody's request. Its next date stays."""
        secret.start(drawn_token(drawn))
        self.enter(NOBODY, drawn, "Begun", {"ARN": secret.arn}, secret)
        self.finish()

    def report(self, secret, answer):
        """Enters an answer to the step at which a secret's rotation is."""
        job = secret.job
        secret.report(answer)
        step = {"ARN": secret.arn, "Token": job.token, "Stage": job.stage, "Attempt": job.attempt, "Answer": answer}
        self.enter(NOBODY, b"", "Reported", step, secret)
        self.finish()

    def again(self, entry):
        """Does once more what an entry of a journal did, if it is legal there: it would be accepted, and is no repeat."""
        if entry.moment < self.last or self.count() == NO_NUMBER:
            raise Illegal
        self.begin(entry.moment)
        self.prunes = entry.prunes
        if entry.act == "Begun":
            self.start_again(entry)
        elif entry.act == "Reported":
            self.report_again(entry.fields)
        else:
            self.ask_again(entry)
        self.finish()
        self.prunes = True

    def start_again(self, entry):
        """A start is legal where the secret with exactly this ARN is due for the token."""
        secret = next((secret for secret in self.secrets if secret.arn == entry.fields["ARN"]), None)
        if secret is None or not secret.is_due() or drawn_token(entry.drawn) in secret.versions:
            raise Illegal
        self.start(secret, entry.drawn)

    def report_again(self, step):
        """An answer is legal where the secret with exactly this ARN is at the step, whatever is answered."""
        secret = next((secret for secret in self.secrets if secret.arn == step["ARN"]), None)
        job = secret.job if secret is not None else None
        if job is None or (job.token, job.stage, job.attempt) != (step["Token"], step["Stage"], step["Attempt"]):
            raise Illegal
        self.report(secret, step["Answer"])

    def ask_again(self, entry):
        """A request is legal in its forms and with its random bytes, whoever asked, and whatever their policies say."""
        if len(entry.drawn) != needed(entry.act, entry.fields):
            raise Illegal
        count, person = len(self.entries), Person(entry.caller, True, entry.by)
        members = renamed(entry.fields, "Regions", OF_REGIONS.get(entry.act))
        try:
            test_forms(entry.act, members)
            self.act(person, entry.act, members, entry.drawn)
        except Refusal:
            raise Illegal
        if len(self.entries) == count:
            # Only the forced deletion of nobody is accepted without an entry and is no repeat: as an entry it changes nothing.
            if not entry.fields.get("ForceDeleteWithoutRecovery"):
                raise Illegal
            self.reached["opened", "the deletion of nobody"] += 1
            self.enter(person, entry.drawn, entry.act, entry.fields)

    def answer(self, person, operation, body):
        self.begin_now()
        members = members_of(operation, body)
        drawn = self.draw(needed(operation, members))
        test_forms(operation, members)
        self.admit(person, operation, members)
        reply = self.act_below_limit(person, operation, members, drawn)
        self.finish()
        return reply

    def admit(self, person, operation, members):
        if operation == "BatchGetSecretValue":
            if "Filters" in members:
                admit(person, "ListSecrets", None, members)
        else:
            admit(person, operation, self.find(members["SecretId"]) if "SecretId" in members else None, members)

    def act_below_limit(self, person, operation, members, drawn):
        """Where as many entries were made as can be counted, what would make another one is refused."""
        if self.count() < NO_NUMBER:
            return self.act(person, operation, members, drawn)
        other = copy.deepcopy(self)
        reply = other.act(person, operation, members, drawn)
        if other.count() > self.count():
            raise limit_of(1000000, "entries")
        return reply

    def act(self, person, operation, members, drawn):
        if operation == "CreateSecret":
            return self.create(person, members, drawn)
        if operation == "GetRandomPassword":
            return password(members, drawn)
        if operation == "ListSecrets":
            return self.list(members)
        if operation == "BatchGetSecretValue":
            return self.batch(person, members)
        if operation == "ValidateResourcePolicy":
            return self.validate(members)
        forced = members.get("ForceDeleteWithoutRecovery", False)
        if forced and self.find(members["SecretId"]) is None:
            return {"DeletionDate": self.moment, "Name": members["SecretId"]}
        secret = self.named(operation, members["SecretId"], forced)
        if operation in READS:
            return READS[operation](secret, members)
        reply, is_new = CHANGES[operation](secret, members, drawn)
        if forced:
            self.secrets.remove(secret)
        if is_new:
            self.enter(person, drawn, operation, members, secret)
        return reply

    def named(self, operation, secret_id, forced=False):
        """The secret that the operation works on."""
        secret = self.find(secret_id)
        if secret is None:
            raise refusal("secret not found")
        if secret.deletion is not None and not forced and operation not in ON_SCHEDULED:
            raise scheduled(secret.deletion)
        return secret

    def listed(self, operation, members):
        """The secrets of a page, and the member of the reply for the next page."""
        numbered = {secret.number: secret for secret in self.secrets}
        planned, filters = members.get("IncludePlannedDeletion", False), members.get("Filters", [])
        items = [
            secret.number for secret in self.secrets
            if (planned or secret.deletion is None) and all(holds(secret, given) for given in filters)
        ]
        shown, following = page(operation, members, items, members.get("SortOrder") == "desc")
        return [numbered[number] for number in shown], following

    def list(self, members):
        secrets, following = self.listed("ListSecrets", members)
        shown = [describe(secret, {}) for secret in secrets]
        for it in shown:
            it["SecretVersionsToStages"] = it.pop("VersionIdsToStages")
        return {"SecretList": shown} | following

    def validate(self, members):
        if "SecretId" in members and self.find(members["SecretId"]) is None:
            raise refusal("secret not found")
        errors = []
        try:
            public = public_statement(policy_of(members["ResourcePolicy"]))
            if public is not None:
                errors.append({"CheckName": "PublicAccess", "ErrorMessage": is_public(public).message})
        except Refusal as flaw:
            errors.append({"CheckName": "Syntax", "ErrorMessage": flaw.message})
        return {"PolicyValidationPassed": not errors, "ValidationErrors": errors}

    def batch(self, person, members):
        ids, following = members.get("SecretIdList"), {}
        if ids is None:
            secrets, following = self.listed("BatchGetSecretValue", members)
            ids = [secret.arn for secret in secrets]
        values, errors = [], []
        for it in ids:
            try:
                test_forms("GetSecretValue", {"SecretId": it})
                admit(person, "GetSecretValue", self.find(it), {"SecretId": it})
                values.append(get(self.named("GetSecretValue", it), {}))
            except Refusal as refused:
                errors.append({"ErrorCode": refused.error, "Message": refused.message, "SecretId": it})
        return {"Errors": errors, "SecretValues": values} | following

    def create(self, person, members, drawn):
        value = value_in(members)
        token = members.get("ClientRequestToken") or (drawn_token(drawn[6:]) if value is not None else None)
        secret = next((secret for secret in self.secrets if secret.name == members["Name"]), None)
        if secret is None:
            tags = members.get("Tags", [])
            if len(tags) > 50:
                raise limit_of(50, "tags")
            if len(self.secrets) >= SECRETS_LIMIT or self.made == NO_NUMBER:
                raise limit_of(SECRETS_LIMIT, "secrets")
            suffix = "".join(SUFFIX_CHARACTERS[byte % 62] for byte in drawn[:6])
            secret = Secret(self, self.made, members["Name"], f"{ARN_BEGINNING}{members['Name']}-{suffix}", tags)
            self.made += 1
            secret.say(members)
            secret.regions = once(members.get("AddReplicaRegions", []))
            self.secrets.append(secret)
            self.enter(person, drawn, "CreateSecret", members, secret)
            if value is not None:
                secret.fill(token, value)
                secret.place("AWSCURRENT", token)
        elif secret.deletion is not None:
            raise scheduled(secret.deletion)
        elif value is None or secret.versions.get(token) != value:
            raise Refusal("ResourceExistsException", f"secret {secret.name} exists", "secret _ exists")
        return secret.named() | secret.replicas_if_some() | ({} if value is None else {"VersionId": token})


# ---- entries


def as_counted(act, fields):
    """The fields of an act: its truth values stand as they count."""
    truths = [field.name for field in formats.FIELDS[act] if field.kind_name == "truth"]
    return {name: name in TRUE_IF_ABSENT for name in truths} | fields


# The member that is the field Regions of an act.
OF_REGIONS = {"RemoveRegionsFromReplication": "RemoveReplicaRegions", "ReplicateSecretToRegions": "AddReplicaRegions"}


def renamed(fields, old, new):
    """The same fields, of which one has another name, if it is there."""
    return {new if name == old and new is not None else name: value for name, value in fields.items()}


def once(names):
    """Each name once, where it came first."""
    return list(dict.fromkeys(names))


def get(secret, members):
    version, label = members.get("VersionId"), members.get("VersionStage")
    if version is None and label is None:
        label = "AWSCURRENT"
    if version is not None and version not in secret.versions or label is not None and secret.holder(label) is None:
        raise refusal("version not found")
    if version is not None and label is not None and secret.holder(label) != version:
        raise refusal("version and label differ")
    version = version or secret.holder(label)
    value = secret.versions[version]
    if value is None:
        raise refusal("version not found")
    shown = {"SecretString": value} if isinstance(value, str) else {"SecretBinary": base64.b64encode(value).decode()}
    shown |= {"CreatedDate": secret.dates[version], "VersionId": version}
    return secret.named() | shown | {"VersionStages": secret.labels_of(version)}


def describe(secret, members):
    staged = {version: secret.labels_of(version) for version in secret.versions if secret.labels_of(version)}
    shown = {"CreatedDate": secret.created, "LastChangedDate": secret.changed}
    shown |= {"RotationEnabled": secret.is_rotated, "VersionIdsToStages": staged}
    if secret.deletion is not None:
        shown["DeletedDate"] = secret.deletion
    if secret.next_rotation is not None:
        shown["NextRotationDate"] = secret.next_rotation
    rules = {"AutomaticallyAfterDays": secret.rules.days, "ScheduleExpression": secret.rules.schedule}
    if secret.rules != Rules():
        shown["RotationRules"] = {name: rule for name, rule in rules.items() if rule is not None}
    shown |= secret.replicas_if_some()
    return secret.named() | secret.said | shown | {"Tags": [{"Key": key, "Value": value} for key, value in secret.tags]}


def list_versions(secret, members):
    numbered = {secret.numbers[version]: version for version in secret.versions}
    listed = [number for number, it in numbered.items() if members.get("IncludeDeprecated") or secret.labels_of(it)]
    shown, following = page("ListSecretVersionIds", members, listed)
    versions = []
    for number in shown:
        version = numbered[number]
        labels = secret.labels_of(version)
        shown_version = {"CreatedDate": secret.dates[version], "VersionId": version}
        versions.append(shown_version | ({"VersionStages": labels} if labels else {}))
    return secret.named() | {"Versions": versions} | following


def add_value(secret, token, value, labels):
    """Puts a value under a token, and says whether it was not there before."""
    if secret.versions.get(token) is not None:
        if secret.versions[token] != value:
            raise Refusal("ResourceExistsException", f"version {token} has another value", "version _ has another value")
        return False
    if token not in secret.versions and secret.is_full():
        raise limit_of(VERSIONS_LIMIT, "versions")
    secret.place_all(labels, token)
    secret.fill(token, value)
    return True


def put(secret, members, drawn):
    """The reply, and whether anything changed."""
    token = members.get("ClientRequestToken") or drawn_token(drawn)
    labels = list(members.get("VersionStages", ["AWSCURRENT"]))
    if secret.holder("AWSCURRENT") is None:
        labels.append("AWSCURRENT")
    is_new = add_value(secret, token, value_in(members), labels)
    return secret.named() | {"VersionId": token, "VersionStages": secret.labels_of(token)}, is_new


def update(secret, members, drawn):
    """The reply, and whether anything changed."""
    value = value_in(members)
    if value is None:
        secret.say(members)
        return secret.named(), True
    token = members.get("ClientRequestToken") or drawn_token(drawn)
    is_new = add_value(secret, token, value, ["AWSCURRENT"])
    if is_new:
        secret.say(members)
    return secret.named() | {"VersionId": token}, is_new


def delete(secret, members, drawn):
    """The reply, and whether anything changed. A forced deletion has the moment as its date."""
    days = 0 if members.get("ForceDeleteWithoutRecovery") else members.get("RecoveryWindowInDays", 30)
    secret.deletion = date = secret.account.moment + 86400 * days
    return secret.named() | {"DeletionDate": date}, True


def restore(secret, members, drawn):
    secret.deletion = None
    return secret.named(), True


def tag(secret, members, drawn):
    tags = dict(secret.tags) | dict(members["Tags"])
    if len(tags) > 50:
        raise limit_of(50, "tags")
    secret.tags = list(tags.items())
    return None, True


def untag(secret, members, drawn):
    secret.tags = [(key, value) for key, value in secret.tags if key not in members["TagKeys"]]
    return None, True


def replicate(secret, members, drawn):
    regions = once(secret.regions + members["AddReplicaRegions"])
    if len(regions) > REGIONS_LIMIT:
        raise limit_of(REGIONS_LIMIT, "regions")
    secret.regions = regions
    return {"ARN": secret.arn, "ReplicationStatus": secret.replicas()}, True


def take_regions(secret, members, drawn):
    secret.regions = [region for region in secret.regions if region not in members["RemoveReplicaRegions"]]
    return {"ARN": secret.arn, "ReplicationStatus": secret.replicas()}, True


def stop(secret, members):
    """A secret of its own account is no replica."""
    raise refusal("secret is not a replica")


def move(secret, members, drawn):
    label, target, source = members["VersionStage"], members.get("MoveToVersionId"), members.get("RemoveFromVersionId")
    for version in (source, target):
        if version is not None and version not in secret.versions:
            raise refusal("version not found")
    holder = secret.holder(label)
    if holder != source if source is not None else holder not in (None, target):
        kind = "label is held by _" if holder else "label is held by no version"
        raise Refusal("InvalidParameterException", f"label is held by {holder or 'no version'}", kind)
    if target is not None:
        if label == "AWSCURRENT" and secret.versions[target] is None:
            raise Refusal("InvalidRequestException", f"version {target} has no value", "version _ has no value")
        secret.place_all([label], target)
    elif label == "AWSCURRENT":
        raise refusal("AWSCURRENT can be moved but not removed")
    else:
        secret.labels = secret.without(label)
    return secret.named(), True


def get_policy(secret, members):
    return secret.named() | ({} if secret.policy is None else {"ResourcePolicy": secret.policy})


def put_policy(secret, members, drawn):
    public = public_statement(policy_of(members["ResourcePolicy"]))
    if public is not None and members.get("BlockPublicPolicy"):
        raise is_public(public)
    secret.policy = members["ResourcePolicy"]
    return secret.named(), True


def delete_policy(secret, members, drawn):
    secret.policy = None
    return secret.named(), True


def rotate(secret, members, drawn):
    """The reply, and whether anything changed."""
    is_immediate = members.get("RotateImmediately", True)
    token = members.get("ClientRequestToken") or (drawn_token(drawn) if is_immediate else None)
    if is_immediate:
        if token in secret.of_rotation:
            return secret.named() | {"VersionId": token}, False
        test_start(secret, token)
        secret.start(token)
    secret.is_rotated = True
    if "RotationRules" in members:
        secret.rules = members["RotationRules"]
    secret.said |= {name: members[name] for name in ("RotationLambdaARN",) if name in members}
    if not is_immediate:
        secret.next_rotation = secret.following_rotation()
    return secret.named() | ({"VersionId": token} if is_immediate else {}), True


def test_start(secret, token):
    """A rotation can start: a version is current, none other waits, and one may be added under the token."""
    current, pending = secret.holder("AWSCURRENT"), secret.holder("AWSPENDING")
    if current is None:
        raise refusal("secret has no current value")
    if pending not in (None, current):
        raise Refusal("InvalidRequestException", f"AWSPENDING is held by {pending}", "AWSPENDING is held by _")
    if token in secret.versions:
        raise Refusal("ResourceExistsException", f"version {token} exists", "version _ exists")
    if secret.is_full():
        raise limit_of(VERSIONS_LIMIT, "versions")


def cancel(secret, members, drawn):
    dropped = {} if secret.job is None else {"VersionId": secret.job.token}
    secret.is_rotated, secret.next_rotation, secret.job = False, None, None
    return secret.named() | dropped, True


# What the operations answer that change no secret.
READS = {
    "DescribeSecret": describe,
    "GetResourcePolicy": get_policy,
    "GetSecretValue": get,
    "ListSecretVersionIds": list_versions,
    "StopReplicationToReplica": stop,
}
# What the operations do that change a secret: the reply, and whether anything changed.
CHANGES = {
    "CancelRotateSecret": cancel,
    "DeleteResourcePolicy": delete_policy,
    "DeleteSecret": delete,
    "PutResourcePolicy": put_policy,
    "RotateSecret": rotate,
    "PutSecretValue": put,
    "RemoveRegionsFromReplication": take_regions,
    "ReplicateSecretToRegions": replicate,
    "RestoreSecret": restore,
    "TagResource": tag,
    "UntagResource": untag,
    "UpdateSecret": update,
    "UpdateSecretVersionStage": move,
}


# ---- messages

REQUEST_LINE = re.compile(rb"([!#-'*+.0-9A-Z^-z|~-]+) ([!-~\x80-\xff]+) HTTP/1\.([01])")
FIELD = re.compile(rb"([!#-'*+.0-9A-Z^-z|~-]+):[ \t]*((?:[!-~\x80-\xff](?:[\t -~\x80-\xff]*[!-~\x80-\xff])?)?)[ \t]*")


class Bad(Exception):
    """A fault stands where a message would begin."""

    def __init__(self, fault, status="400 Bad Request"):
        self.status, self.kind = status, "http: " + fault


class Cut(Exception):
    """The stream ends before the message is whole."""


def is_utf8(text):
    try:
        text.decode("utf-8")
    except ValueError:
        return False
    return True


class Message:
    """The message at a place of a stream, and the place behind it."""

    def __init__(self, stream, at):
        behind = stream.find(b"\r\n\r\n", at, at + HEAD_LIMIT) + 4
        if behind < 4:
            raise Bad("head too long") if len(stream) - at >= HEAD_LIMIT else Cut
        head = stream[at : behind - 4]
        # A lone LF ends a line too, and empty lines before the request line are passed over.
        first, *rest = re.split(rb"\r?\n", re.sub(rb"\A(\r?\n)+", b"", head))
        request = REQUEST_LINE.fullmatch(first)
        fields = [FIELD.fullmatch(line) for line in rest]
        if not request or not is_utf8(request[2]) or not all(fields) or len(fields) > FIELD_LIMIT:
            raise Bad("head")
        self.method, self.path, version = request.groups()
        self.fields = [(field[1].lower(), field[2]) for field in fields]
        self.behind = behind + self.length()
        if len(stream) < self.behind:
            raise Cut
        self.body = stream[behind : self.behind]
        self.is_closing = version == b"0" or (self.first(b"connection") or b"").lower() == b"close"

    def values(self, name):
        return [value for other, value in self.fields if other == name]

    def first(self, name):
        return next(iter(self.values(name)), None)

    def length(self):
        lengths = self.values(b"content-length")
        if self.values(b"transfer-encoding"):
            raise Bad("chunked")
        if not lengths:
            return 0
        if len(lengths) > 1 or not re.fullmatch(rb"[0-9]{1,10}", lengths[0]):
            raise Bad("length")
        if int(lengths[0]) > BODY_LIMIT:
            raise Bad("body too long", "413 Content Too Large")
        return int(lengths[0])

    def operation(self):
        target = self.first(b"x-amz-target") or b""
        if self.method != b"POST" or self.path != b"/" or not target.startswith(b"secretsmanager."):
            raise refusal("unknown operation")
        return target[len(b"secretsmanager."):].decode("latin-1")


def messages_of(stream):
    """The messages that the stream begins with."""
    messages, at = [], 0
    while not (messages and messages[-1].is_closing):
        try:
            messages.append(Message(stream, at))
        except (Bad, Cut):
            break
        at = messages[-1].behind
    return messages


def framed(status, shown):
    body = b"" if shown is None else json.dumps(shown, separators=(",", ":"), ensure_ascii=False, sort_keys=True).encode()
    head = f"HTTP/1.1 {status}\r\nContent-Type: application/x-amz-json-1.1\r\nContent-Length: {len(body)}\r\n\r\n"
    return head.encode() + body


def reply(account, message):
    operation = None
    try:
        operation = message.operation()
        if operation not in MEMBERS:
            raise refusal("unknown operation")
        person = account.people.caller(message)
        shown = account.answer(person, operation, message.body)
        account.reached[operation, "accepted"] += 1
        return framed("200 OK", shown)
    except Refusal as refused:
        account.reached[operation, refused.kind] += 1
        return framed("400 Bad Request", {"Message": refused.message, "__type": refused.error})


def take_turns(account):
    """The steps of rotations behind a message."""
    turns = 0
    while turns < TURN_LIMIT and account.turn():
        turns += 1


def run(stream, account):
    """The exit code and the output of a run over this input, on this account."""
    output, at, is_closed = b"", 0, False
    for _ in range(MESSAGE_LIMIT):
        if is_closed or at == len(stream):
            return 0, output
        try:
            message = Message(stream, at)
        except Cut:
            return 10, output
        except Bad as bad:
            account.reached[None, bad.kind] += 1
            return 11, output + framed(bad.status, {"Message": bad.kind, "__type": "SerializationException"})
        output += reply(account, message)
        take_turns(account)
        at, is_closed = message.behind, message.is_closing
    return 12, output


def date_of(moment):
    return datetime.datetime.fromtimestamp(moment, datetime.timezone.utc).strftime("%Y-%m-%d")


def summary(account):
    """What mode check says of an account, at the reading of the clock, also where that is before the last entry."""
    account.begin(account.clock)
    secrets = account.secrets
    lines = [f"secrets {len(secrets)} versions {sum(len(it.versions) for it in secrets)} entries {account.count()}"]
    for it in secrets:
        state = "live" if it.deletion is None else f"until {date_of(it.deletion)}"
        job = "idle" if it.job is None else f"{it.job.stage} {it.job.attempt}"
        lines.append(f"{it.name} {date_of(it.created)} versions {len(it.versions)} labels {len(it.labels)} {state} {job}")
    return "".join(line + "\n" for line in lines).encode()
