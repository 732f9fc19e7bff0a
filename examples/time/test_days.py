"""Days that pass while a test looks: a day passes for the server each second. SECRETSD names the program."""
import contextlib, glob, os, subprocess, time

import boto3
import pytest

KEYS = {"aws_access_key_id": "any", "aws_secret_access_key": "any", "region_name": "us-east-1"}


@pytest.fixture
def secrets():
    """A client of a server for which a day passes each second. Debian's package faketime has the library."""
    library = glob.glob("/usr/lib/*/faketime/libfaketime.so.1")[0]
    # its timeouts go by another clock, which is left as it is: else they pass as fast
    here = {**os.environ, "LD_PRELOAD": library, "FAKETIME": "+0 x86400", "FAKETIME_DONT_FAKE_MONOTONIC": "1"}
    words = [os.environ.get("SECRETSD", "secretsd"), "--mode", "serve", "--listen", "127.0.0.1:0"]
    with subprocess.Popen(words, stderr=subprocess.PIPE, text=True, env=here) as server, contextlib.ExitStack() as ends:
        # what the library leaves behind where a process is killed
        ends.callback(lambda: [os.remove(it) for it in glob.glob(f"/dev/shm/*faketime_*_{server.pid}")])
        ends.callback(server.kill)
        line = next(line for line in server.stderr if line.startswith("secretsd: listening on "))
        yield boto3.client("secretsmanager", endpoint_url="http://" + line.split()[3].rstrip(","), **KEYS)


def test_rotates_each_two_days(secrets):
    secrets.create_secret(Name="db/app", SecretString='{"password": "first"}')
    secrets.rotate_secret(SecretId="db/app", RotationRules={"AutomaticallyAfterDays": 2})
    time.sleep(8)
    assert len(secrets.list_secret_version_ids(SecretId="db/app", IncludeDeprecated=True)["Versions"]) >= 4


def test_deletes_after_seven_days(secrets):
    secrets.create_secret(Name="db/app", SecretString="s3cret")
    secrets.delete_secret(SecretId="db/app", RecoveryWindowInDays=7)
    time.sleep(8)
    with pytest.raises(secrets.exceptions.ResourceNotFoundException):
        secrets.describe_secret(SecretId="db/app")
