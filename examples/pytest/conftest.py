"""Fixtures that give a test a boto3 client of a server of its own. SECRETSD names the program."""
import contextlib, os, shutil, subprocess

import boto3
import pytest

KEYS = {"aws_access_key_id": "any", "aws_secret_access_key": "any", "region_name": "us-east-1"}


@contextlib.contextmanager
def served(*words):
    """A client of a server at a free port, which its line `listening on` names."""
    command = [os.environ.get("SECRETSD", "secretsd"), "--mode", "serve", "--listen", "127.0.0.1:0", *words]
    with subprocess.Popen(command, stderr=subprocess.PIPE, text=True) as server, contextlib.ExitStack() as ends:
        ends.callback(server.kill)
        line = next(line for line in server.stderr if line.startswith("secretsd: listening on "))
        yield boto3.client("secretsmanager", endpoint_url="http://" + line.split()[3].rstrip(","), **KEYS)


@pytest.fixture
def secrets():
    with served() as client:
        yield client


@pytest.fixture(scope="session")
def filled(tmp_path_factory):
    """A folder that is filled once, for all tests of a process."""
    folder = tmp_path_factory.mktemp("filled")
    with served("--data", folder) as client:
        client.create_secret(Name="db/app", SecretString="s3cret")
    return folder


@pytest.fixture
def copied(filled, tmp_path):
    with served("--data", shutil.copytree(filled, tmp_path / "secrets")) as client:
        yield client
