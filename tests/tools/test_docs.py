"""README.md and docs/FORMS.md hold what they show: the walk of a newcomer, run word by word in an empty folder, the listing of a real gene,
the script that tells a refusal, and the forms of case D byte by byte."""

import os
import re
import subprocess
import sys
import tempfile

ROOT = os.path.realpath(os.path.join(os.path.dirname(os.path.abspath(__file__)), "..", ".."))
for folder in ("tools", "tests", "tests/reference"):
    sys.path.insert(0, os.path.join(ROOT, folder))

from cases import D, D_ANSWER
from form import MEANINGS
from forms import encode_answer, encode_graph
from tally import end, holds_that


def blocks(name):
    """The fenced blocks of a page: the word behind the fence, and the text."""
    with open(os.path.join(ROOT, name)) as f:
        return re.findall(r"^```(\w*)\n(.*?)^```$", f.read(), re.MULTILINE | re.DOTALL)


def said(script, room):
    done = subprocess.run(["bash", "-eu", "-c", script], cwd=room, capture_output=True, text=True)
    return done.returncode, done.stdout, done.stderr


def in_folder(work):
    """Work in a folder that has the tools beside it, as the repository has."""
    with tempfile.TemporaryDirectory() as room:
        os.symlink(os.path.join(ROOT, "tools"), os.path.join(room, "tools"))
        return work(room)


# The walk: each block of commands, and what the block behind it shows.
page = blocks("README.md")
shown = [(text, page[k + 1][1] if page[k + 1][0] == "text" else "") for k, (kind, text) in enumerate(page) if kind == "sh"]
holds_that("blocks of the walk", len(shown), 4)
walk = "\n".join(f"echo '== {k}'\n{text}" for k, (text, _) in enumerate(shown))
wanted = "".join(f"== {k}\n{text}" for k, (_, text) in enumerate(shown))
holds_that("the walk", in_folder(lambda room: said(walk + "\necho '== listing'; cat listing.txt", room)),
           (0, wanted + "== listing\n" + shown[0][1], ""))
ways = [way for text, _ in shown for way in re.findall(r"^\.\./tools/\S+", text, re.MULTILINE)]
holds_that("the walk calls both tools as they stand", set(ways), {"../tools/form.py", "../tools/run"})

# The script, where the graph is refused, and where the listing is cut.
script = shown[-1][0]
refused = shown[0][0].replace("vertex end 1", "vertex - 1") + "\n" + script
holds_that("the script of a refused graph", in_folder(lambda room: said(f"({refused}) 2>/dev/null\nls mygene", room)),
           (0, "refused 8 0\n8: no cover exists: this asks for something and lies on no path from a start to an end\n"
            "mygene.txt, line 2: vertex start 1\ngraph.bin\nmygene.txt\n", ""))
holds_that("the script has five lines", len(script.splitlines()), 5)
full = said("tools/run assemble > /dev/full < /dev/null; echo $?", ROOT)
holds_that("a full disk, status 0", full[:2], (0, "0\n"))

# The gene.
gene = [text for kind, text in page if kind == "listing"]
commands = f"../tools/form.py graph '{ROOT}/examples/LIPI.txt' graph.bin\n../tools/run assemble < graph.bin"
holds_that("the listing of LIPI", [in_folder(lambda room: said("mkdir gene; cd gene\n" + commands, room))], [(0, text, "") for text in gene])

# Case D.
dumps = [re.findall(r"^([0-9a-f]{4})  ((?:[0-9a-f]{2} ?)+)", text, re.MULTILINE) for kind, text in blocks("docs/FORMS.md") if kind == "bytes"]
for what, dump, form in zip(("graph", "answer"), dumps, (encode_graph(D), encode_answer(D_ANSWER))):
    held = b""
    for offset, line in dump:
        holds_that(f"the offset of a line of D's {what}", int(offset, 16), len(held))
        held += bytes.fromhex(line)
    holds_that(f"the bytes of D's {what}", held, form)
holds_that("both forms of D are shown", len(dumps), 2)

# Every number that explain knows has its row on both pages, and no other has.
for name, heading in (("README.md", "## Refusals"), ("docs/FORMS.md", "## Numbers and places")):
    with open(os.path.join(ROOT, name)) as f:
        rows = re.findall(r"^\| (\d+) \|", f.read().split(heading)[1], re.MULTILINE)
    holds_that(f"numbers in {name}", [int(row) for row in rows], list(MEANINGS))
end()
