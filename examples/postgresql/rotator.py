#!/usr/bin/env python3
"""A rotator that changes the password of a PostgreSQL user, by psql, and tries it: secretsd --rotator 127.0.0.1:7778

The secret is a JSON object with host, port, dbname, username and password. A step may be asked more than once, so
setSecret first tries whether the new password is set already.
"""
import json
import os
import secrets
import socketserver
import subprocess
import sys


def is_run(login, text):
    """Whether PostgreSQL runs the text for the login."""
    words = ["psql", "--no-psqlrc", "--quiet", "--set=ON_ERROR_STOP=1", "--host", login["host"]]
    words += ["--port", str(login["port"]), "--username", login["username"], "--dbname", login["dbname"]]
    here = {**os.environ, "PGPASSWORD": login["password"]}
    return subprocess.run(words, input=text, text=True, env=here, stdout=subprocess.DEVNULL).returncode == 0


def answer(step, current, pending):
    if step == "createSecret":
        return {"Answer": "Value", "SecretString": json.dumps({**current, "password": secrets.token_urlsafe(24)})}
    is_well = is_run(pending, "SELECT 1")
    if step == "setSecret" and not is_well:
        is_well = is_run(current, f"ALTER ROLE CURRENT_USER PASSWORD '{pending['password']}'")
    return {"Answer": "Yes" if is_well else "No"}


class Step(socketserver.StreamRequestHandler):
    def handle(self):
        asked = json.loads(self.rfile.readline())
        values = [json.loads(asked.get(it, {}).get("SecretString", "null")) for it in ("Current", "Pending")]
        self.wfile.write(json.dumps(answer(asked["Step"], *values)).encode() + b"\n")


socketserver.ThreadingTCPServer(("127.0.0.1", int(sys.argv[1]) if sys.argv[1:] else 7778), Step).serve_forever()
