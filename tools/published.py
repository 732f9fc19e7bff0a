"""AWS's published examples for its command line, as the package awscli has them, asked of a server (tools/clients)."""
import contextlib
import functools
import importlib.util
import io
import os
import re
import shlex
import tempfile

# The examples that are refused, by their operation and a word of theirs, with the message (docs/COMPATIBILITY.md).
REFUSED = {
    ("list-secrets", "owning-service"): "Filters is not in its form",
    ("rotate-secret", "Duration"): "RotationRules is not in its form",
    ("stop-replication-to-replica", ""): "secret is not a replica",
}
# The secrets and the versions that the examples name; the last version is the current one.
SECRETS = ("MyTestSecret", "MyTestDatabaseSecret", "MySecret1", "MySecret2", "MySecret3")
VERSIONS = (
    "EXAMPLE1-90ab-cdef-fedc-ba987EXAMPLE",
    "a1b2c3d4-5678-90ab-cdef-EXAMPLE22222",
    "a1b2c3d4-5678-90ab-cdef-EXAMPLE11111",
)
LOGIN = '{"user":"diegor","password":"PREVIOUS-EXAMPLE-PASSWORD"}'
BLOCK = re.compile(r"\n\n((?:    .*\n|\n)+)")
FILE = re.compile(r"Contents of ``(\S+)``::\n\n((?:    .*\n|\n)+)")


def folder():
    """Where the package has the examples, or None."""
    package = importlib.util.find_spec("awscli")
    path = package and os.path.join(os.path.dirname(package.origin), "examples", "secretsmanager")
    return path if path and os.path.isdir(path) else None


def examples():
    """Each example: its operation, its command in one line, and the files that it names."""
    for name in sorted(os.listdir(folder())):
        with open(os.path.join(folder(), name), encoding="utf-8") as file:
            text = file.read()
        for part in re.split(r"^(?=.*\*\*Example)", text, flags=re.M):
            for block in BLOCK.findall(part):
                if block.startswith("    aws secretsmanager "):
                    command = block.replace("\\\n", " ").replace("\n", " ")
                    yield name.removesuffix(".rst"), command, dict(FILE.findall(part))


def prepare(ask, operation, command):
    """Brings the secrets that an example names to where its text says that they are."""
    for name in SECRETS:
        ask("DeleteSecret", SecretId=name, ForceDeleteWithoutRecovery=True)
        if operation != "create-secret":
            ask("CreateSecret", Name=name, SecretString=LOGIN, ClientRequestToken=VERSIONS[0])
            for version in VERSIONS[1:]:
                ask("PutSecretValue", SecretId=name, SecretString=LOGIN, ClientRequestToken=version)
    if operation == "restore-secret":
        ask("DeleteSecret", SecretId=SECRETS[0], RecoveryWindowInDays=7)
    if operation == "update-secret-version-stage" and "--move-to" not in command:
        ask("UpdateSecretVersionStage", SecretId=SECRETS[0], VersionStage="STAGINGLABEL1", MoveToVersionId=VERSIONS[-1])


@functools.cache
def driver():
    """The command line, in this process: it reads the service's description once."""
    from awscli.clidriver import create_clidriver

    return create_clidriver()


def run(command, files, address):
    """Whether the command line accepts an example, and what it says."""
    said = io.StringIO()
    with tempfile.TemporaryDirectory() as place:
        for name, text in files.items():
            with open(os.path.join(place, name), "w", encoding="utf-8") as file:
                file.write(text)
        words = [it.replace("file://", f"file://{place}/") for it in shlex.split(command)[1:]]
        with contextlib.redirect_stdout(said), contextlib.redirect_stderr(said):
            status = driver().main([*words, "--endpoint-url", address])
    return status == 0, said.getvalue()


def published_run(ask, address):
    """Each example, and whether it is accepted, or refused with the message that is wanted."""
    for operation, command, files in examples():
        prepare(ask, operation, command)
        is_accepted, said = run(command, files, address)
        message = next((it for (name, word), it in REFUSED.items() if name == operation and word in command), None)
        yield " ".join(command.split())[:100], is_accepted if message is None else not is_accepted and message in said
