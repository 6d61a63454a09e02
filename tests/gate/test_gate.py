"""The gate in a copy of its own, where a stand-in takes the place of each test and of `rt`: it passes as it is, and each way to leave
something out fails it. Then the tests in Python: none rests on `assert`, and none is blind where Python leaves that out.

    python3 tests/gate/test_gate.py
"""

import ast
import glob
import os
import re
import shutil
import subprocess
import sys
import tempfile

ROOT = os.path.realpath(os.path.join(os.path.dirname(os.path.abspath(__file__)), "..", ".."))
sys.path.insert(0, os.path.join(ROOT, "tests"))

from tally import end, holds_that

LINE = re.compile(r"(\d+) passed, (\d+) failed")


def listed():
    with open(os.path.join(ROOT, "tests", "list")) as f:
        words = [line.split(None, 1) for line in f if line.strip() and not line.startswith("#")]
    return {name.strip(): int(least) for least, name in words}


def write(path, text):
    os.makedirs(os.path.dirname(path), exist_ok=True)
    with open(path, "w") as f:
        f.write(text)
    os.chmod(path, 0o755)


def file_of(room, name):
    return os.path.join(room, "bin", "rt") if name == "rt ci" else os.path.join(room, name)


def gate(change):
    """Status, passes and failures that a copy of the gate ends with once it is changed; (status, None, None) without the last line."""
    with tempfile.TemporaryDirectory() as room:
        for name in (".ci/run", "tests/run", "tests/list"):
            os.makedirs(os.path.dirname(os.path.join(room, name)), exist_ok=True)
            shutil.copy(os.path.join(ROOT, name), os.path.join(room, name))
        for name, least in listed().items():
            write(file_of(room, name), f"#!/bin/sh\necho begun\necho '{least} passed, 0 failed'\n")
        change(room)
        path = os.path.join(room, "bin") + os.pathsep + os.environ["PATH"]
        done = subprocess.run(["bash", os.path.join(room, ".ci", "run")], capture_output=True, text=True, env={**os.environ, "PATH": path})
        last = LINE.fullmatch(done.stdout.splitlines()[-1]) if done.stdout else None
        return (done.returncode, int(last[1]), int(last[2])) if last else (done.returncode, None, None)


def fails(what, change):
    status, passed, failed = gate(change)
    holds_that(f"{what}: status", status != 0, True)
    holds_that(f"{what}: failures in the last line", failed is not None and failed > 0, True)


def says(name, text):
    return lambda room: write(file_of(room, name), "#!/bin/sh\n" + text)


def edits_list(edit):
    def change(room):
        path = os.path.join(room, "tests", "list")
        with open(path) as f:
            lines = f.readlines()
        with open(path, "w") as f:
            f.writelines(edit(lines))
    return change


tests = listed()
holds_that("as it is", gate(lambda room: None), (0, sum(tests.values()), 0))
holds_that("counts that a test prints are added up",
           gate(says("rt ci", f"echo '1 passed, 0 failed'; echo '{tests['rt ci']} passed, 0 failed'\n")), (0, sum(tests.values()) + 1, 0))

for name, least in tests.items():
    if name != "rt ci":  # without the stand-in the real one would run
        fails(f"{name} removed", lambda room: os.remove(file_of(room, name)))
    fails(f"{name} emptied", says(name, ""))
    fails(f"{name} with 0 passed", says(name, "echo '0 passed, 0 failed'\n"))
    fails(f"{name} with one too few", says(name, f"echo '{least - 1} passed, 0 failed'\n"))
    fails(f"{name} not listed", edits_list(lambda lines: [line for line in lines if line.split(None, 1)[1:] != [name + "\n"]]))
first = next(iter(tests))
fails("a row that fails, status 0", says(first, f"echo '{tests[first]} passed, 1 failed'\n"))
fails("a must-fail edit that is bad", says("rt ci", f"echo 'rt: ok; handles allowed: none; must-fail edits: 83 refused, 1 bad; every proof was done'; "
                                                  f"echo '{tests['rt ci']} passed, 0 failed'\n"))
holds_that("each must-fail edit is refused", gate(says("rt ci", "echo 'rt: ok; handles allowed: none; must-fail edits: 84 refused; every proof was done'; "
                                                             f"echo '{tests['rt ci']} passed, 0 failed'\n")), (0, sum(tests.values()), 0))
fails("a failure in the first of two counts", says(first, f"echo '{tests[first]} passed, 1 failed'; echo '{tests[first]} passed, 0 failed'\n"))
fails("a test that dies after its count", says(first, f"echo '{tests[first]} passed, 0 failed'; exit 3\n"))
fails("a test that is killed", says(first, f"echo '{tests[first]} passed, 0 failed'; kill -9 $$\n"))
fails("a test that dies before its count", says(first, "exit 1\n"))
fails("a test beside the list", lambda room: write(os.path.join(room, "tests", "new", "test"), "echo '1 passed, 0 failed'\n"))
fails("an empty list", edits_list(lambda lines: []))
fails("no list", lambda room: os.remove(os.path.join(room, "tests", "list")))
fails("a list that asks for nothing", edits_list(lambda lines: [re.sub(r"^[0-9]+", "0", line) for line in lines]))
fails("no test and no list", lambda room: [shutil.rmtree(folder) for folder in glob.glob(os.path.join(room, "tests", "*", ""))] +
      [os.remove(os.path.join(room, "tests", "list"))])

# All that PYTHONOPTIMIZE=1 changes is that `assert` is left out and `__debug__` is false. And a count of failures is counted, never a
# word of the text.
for path in sorted(glob.glob(os.path.join(ROOT, "tests", "**", "*.py"), recursive=True)):
    with open(path) as f:
        nodes = list(ast.walk(ast.parse(f.read())))
    name = os.path.relpath(path, ROOT)
    blind = [node.lineno for node in nodes if isinstance(node, ast.Assert) or isinstance(node, ast.Name) and node.id == "__debug__"]
    holds_that(f"{name}: lines that rest on assert", blind, [])
    if path != os.path.abspath(__file__):
        texts = [node for node in nodes if isinstance(node, ast.Constant) and isinstance(node.value, str)]
        holds_that(f"{name}: lines that print no failure", [node.lineno for node in texts if re.search(r"passed, \d+ failed", node.value)], [])


def optimized(folders, script, path, old, new):
    """How a test ends under PYTHONOPTIMIZE, in a copy as it is and in one where a file is wrong: status not 0, failures counted."""
    ends = []
    for change in (False, True):
        with tempfile.TemporaryDirectory() as room:
            for folder in folders:
                shutil.copytree(os.path.join(ROOT, folder), os.path.join(room, folder), ignore=shutil.ignore_patterns("__pycache__", "built"))
            shutil.copy(os.path.join(ROOT, "tests", "tally.py"), os.path.join(room, "tests", "tally.py"))
            with open(os.path.join(room, path)) as f:
                text = f.read()
            holds_that(f"{path} has {old}", text.count(old), 1)
            write(os.path.join(room, path), text.replace(old, new) if change else text)
            done = subprocess.run([sys.executable, script], cwd=room, capture_output=True, text=True, env={**os.environ, "PYTHONOPTIMIZE": "1"})
            last = LINE.fullmatch(done.stdout.splitlines()[-1]) if done.stdout else None
            ends.append((done.returncode != 0, last is not None and int(last[2]) > 0))
    return ends


holds_that("tests/reference under PYTHONOPTIMIZE, as it is and with a wrong price",
           optimized(["tests/reference"], "tests/reference/test_rows.py", "tests/reference/cases.py", "D_ANSWER = Answer(34,", "D_ANSWER = Answer(33,"),
           [(False, False), (True, True)])
end()
