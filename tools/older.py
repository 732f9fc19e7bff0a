"""Runs of programs on folders that an older one made (tools/folders), beside the model.

A folder is of the first format, and has never had a base. A program that knows bases puts one in the place of its
journal at the first opening, and another one once more than 1,000 entries stand behind it. The clock of the runs
always reads the same, and each run answers at most 1,000 messages.
"""

import os
import tempfile

import forged
import stores

TOP = os.path.join(os.path.dirname(os.path.abspath(__file__)), "folders")
# How many entries a run adds at most that are counted, and how many messages of a stream another one answers.
MOST_ADDED = 900
MOST_ASKED = 100


def names():
    return sorted(name for name in os.listdir(TOP) if os.path.isdir(os.path.join(TOP, name)))


def tagged(name, count):
    """Messages that make a secret and change its tag, so many together."""
    made = [forged.question("CreateSecret", Name=name)]
    for value in range(count - 1):
        made.append(forged.question("TagResource", SecretId=name, Tags=[{"Key": "n", "Value": str(value)}]))
    return b"".join(made)


def steps(folder, streams, at_last):
    """The mode and the input of each run, in turn; the folder is the model's, which has made the runs before. Where
    exactly as many entries stand behind the base as may, it is opened in mode check, and with one more in the mode
    `at_last`."""
    yield from [("check", b""), ("check", b"")]
    yield "exec", streams.over(folder.account, MOST_ASKED)
    yield "check", b""
    yield "exec", tagged("counted", 2)
    number = 0
    while folder.behind() < stores.MOST_BEHIND:
        number += 1
        missing = stores.MOST_BEHIND - folder.behind()
        yield "exec", tagged(f"counted-{number}", min(missing, MOST_ADDED))
    yield "check", b""
    yield "exec", tagged("counted-at-last", 1)
    if at_last == "check":
        yield "check", b""
    yield "exec", streams.over(folder.account, MOST_ASKED)
    yield "check", b""


def fault_of(programs, name, streams, at_last):
    """What differs from the model in the first run of a program where something does, or None."""
    wanted = stores.Folder(stores.read(os.path.join(TOP, name)))
    with tempfile.TemporaryDirectory() as top:
        people = people_file(top, streams.people)
        folders = {program: copy_in(top, f"folder-{number}", wanted.files) for number, program in enumerate(programs)}
        for number, (mode, stream) in enumerate(steps(wanted, streams, at_last)):
            code, output = wanted.run(mode, stream, streams.people)
            for program, folder in folders.items():
                seen = forged.Seen(program, folder, mode, stream, people).of_opening()
                fault = forged.told(mode, seen.differs(code, output, wanted), seen, output + wanted.said.encode())
                if fault:
                    return f"run {number} on a copy of {name}: {program}: {fault}"
    return None


def people_file(top, text):
    """The path of a file with a people text, or None where that is empty."""
    path = os.path.join(top, "people")
    with open(path, "wb") as file:
        file.write(text)
    return path if text else None


def copy_in(top, name, files):
    """The path of a new folder with these files."""
    path = os.path.join(top, name)
    os.mkdir(path)
    stores.write(path, files)
    return path
