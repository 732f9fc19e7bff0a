#!/usr/bin/env python3
"""Makes a secret of each member of a JSON file, or of each line NAME=VALUE of another file, by the AWS command line.

    seed.py http://127.0.0.1:7777 FILE [PREFIX]

Each request goes to `aws secretsmanager create-secret --cli-input-json` in a file, so that no value stands among the
words of a process. Its token is made of the name and the value: to seed the same again changes nothing.
"""
import json
import subprocess
import sys
import tempfile
import uuid


def pairs_of(path):
    """Each name in a file, with its value as text."""
    with open(path, encoding="utf-8") as file:
        if path.endswith(".json"):
            members = json.load(file).items()
            return [(name, value if isinstance(value, str) else json.dumps(value)) for name, value in members]
        lines = [line.strip().removeprefix("export ") for line in file]
    pairs = [line.split("=", 1) for line in lines if "=" in line and not line.startswith("#")]
    return [(name, value.strip("\"'")) for name, value in pairs]


address, path, prefix = [*sys.argv[1:], ""][:3]
for name, value in pairs_of(path):
    token = str(uuid.uuid5(uuid.NAMESPACE_URL, f"{prefix}{name} {value}"))
    request = {"Name": prefix + name, "SecretString": value, "ClientRequestToken": token}
    command = ["aws", "secretsmanager", "create-secret", "--endpoint-url", address, "--output", "text"]
    with tempfile.NamedTemporaryFile("w") as file:
        json.dump(request, file)
        file.flush()
        subprocess.run([*command, "--cli-input-json", f"file://{file.name}"], check=True)
