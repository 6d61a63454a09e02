"""Trials of the trials: wrong libraries, which the comparison must catch. Run by hand: python3 tests/trials/wrong.py (a quarter of an hour).

Each is a copy of the repository in a temporary folder in which one call does something else. Its promise is taken away, so that it is
proved (safe, and ending) and built as the right one is. The first complaint of the trials is printed for each.
"""

import os
import random
import re
import shutil
import subprocess
import sys
import tempfile

import trials

ROOT = os.path.abspath(os.path.join(os.path.dirname(os.path.abspath(__file__)), "..", ".."))

# What a builder's body ends with, and all of a right one.
GIVE = """
    let Refusal { number, place } = told(built);
    BuiltForm { number, place, written: built.unwrap_or(0) as u64 }
"""
BUILD = """
    let built = builder::build::build(graph, out);
""" + GIVE

# What a hand-out's body ends with.
PART = """
    let Refusal { number, place } = told(found);
    let part = found.unwrap_or(PathPart { offset: 0, length: 0 });
    HandedOutPart { number, place, offset: part.offset as u64, length: part.length as u64 }
"""

# What is wrong, the call, and its new body, with the functions that this needs behind it.
WRONG = [
    ("a reader that gives 6 for 7", "read_graph_form", """
    let Refusal { number, place } = told(checker::reader::read_graph(graph));
    if number == 7 {
        return Refusal { number: 6, place };
    }
    Refusal { number, place }
"""),
    ("a checker that refuses always", "check_answer_form", """
    Refusal { number: 11, place: 0 }
"""),
    ("a checker that tests slacks but does not compare bound and price", "check_answer_form", """
    let Refusal { number, place } = told(checker::check::check(graph, answer));
    if number == 22 {
        return Refusal { number: 0, place };
    }
    Refusal { number, place }
"""),
    ("a checker that gives the place of 19 among the demands alone", "check_answer_form", """
    let Refusal { number, place } = told(checker::check::check(graph, answer));
    if number == 19 && place > 319 {
        return Refusal { number, place: 319 };
    }
    Refusal { number, place }
"""),
    ("a hand-out that always gives the first path", "hand_out_path", """
    let found = checker::check::find_path(graph, answer, 0);
""" + PART),
    ("a hand-out of a single vertex from another byte of the same value", "hand_out_path", """
    let found = checker::check::find_path(graph, answer, k as usize);
    if let Ok(part) = found {
        if part.length == 1 && part.offset < answer.len() && answer[0] == answer[part.offset] {
            return HandedOutPart { number: 0, place: 0, offset: 0, length: 1 };
        }
    }
""" + PART),
    ("a builder that gives 9 before 8", "build_answer_form", """
    if out.len() < 32543 {
        return BuiltForm { number: 9, place: 0, written: 0 };
    }
""" + BUILD),
    ("a builder that clears the last byte of the output", "build_answer_form", """
    let built = builder::build::build(graph, out);
    if out.len() > 0 {
        out[out.len() - 1] = 0;
    }
""" + GIVE),
    ("a builder that says one byte less than it wrote", "build_answer_form", """
    let built = builder::build::build(graph, out);
    let written = built.unwrap_or(0) as u64;
    if written > 0 {
        return BuiltForm { number: 0, place: 0, written: written - 1 };
    }
""" + GIVE),
    # The answer's graph has one vertex, start and end, of demand 1; refusals are right.
    ("a builder that gives another graph's answer", "build_answer_form", r"""
    let mut trial = [0; 32543];
    let first = told(builder::build::build(graph, &mut trial));
    if first.number != 0 {
        return BuiltForm { number: first.number, place: first.place, written: 0 };
    }
    let built = builder::build::build(b"\x00\x00\x00\x12\x01\x01\x00\x00\x00\x00\x00\x00\x01\x03\x00\x00\x00\x01", out);
""" + GIVE),
    # Covers with an odd demand of the first vertex, where there is such a cover; refusals are right.
    ("a builder that takes a copy too many through the first vertex", "build_answer_form", """
    if graph.len() <= 3165 {
        let mut other = [0; 3165];
        let n = graph.len();
        other[..n].copy_from_slice(graph);
        other[17] = other[17] | 1;
        let mut trial = [0; 32543];
        let first = build_copy(&other, graph.len(), &mut trial);
        if first.number == 0 {
            return build_copy(&other, graph.len(), out);
        }
    }
""" + BUILD.rstrip() + """
}

fn build_copy(other: &[u8; 3165], n: usize, out: &mut [u8]) -> BuiltForm
{
    build_front(other, n, out)
}

fn build_front(other: &[u8], n: usize, out: &mut [u8]) -> BuiltForm
{
    if n > other.len() {
        return BuiltForm { number: 1, place: 0, written: 0 };
    }
    let built = builder::build::build(&other[0..n], out);
""" + GIVE),
]


def make_wrong(folder, call, body):
    """Takes the call's promise away and gives it another body."""
    path = os.path.join(folder, "crates", "calls", "src", "lib.rt")
    with open(path) as f:
        text = f.read()
    start = text.index(f'pub extern "C" fn {call}(')
    end = text.index("\n}\n", start)
    head = text[start:text.index("\n{\n", start)]
    head = re.sub(r"\n    ensures .*", "", head)
    with open(path, "w") as f:
        f.write(text[:start] + head + "\n{" + body.rstrip() + text[end:])
    shutil.rmtree(os.path.join(folder, "crates", "calls", "proofs", call), ignore_errors=True)


def tried(driver):
    """Runs trials until some fail; how many failed."""
    trials.passed = trials.failed = 0
    batch = trials.Batch([driver])
    trials.stored(batch)
    for name in ("small", "genes"):
        if trials.failed == 0:
            trials.family(batch, name, trials.make(name, 1, 200), random.Random(1), name == "small")
    return trials.failed


if __name__ == "__main__":
    caught = 0
    trials.SHOWN = 1
    for what, call, body in WRONG:
        print(f"== {what}", flush=True)
        with tempfile.TemporaryDirectory() as temporary:
            folder = os.path.join(temporary, "copy")
            # Proofs of the crates below come along, so that only the calls are proved anew.
            shutil.copytree(ROOT, folder, ignore=shutil.ignore_patterns(".git", "built", "__pycache__"))
            make_wrong(folder, call, body)
            done = subprocess.run(["bash", os.path.join(folder, "tests", "trials", "build")], capture_output=True, text=True)
            if done.returncode != 0:
                sys.exit(done.stdout + done.stderr)
            failed = tried(os.path.join(folder, "tests", "trials", "built", "run"))
            caught += failed > 0
            print(f"== {'caught: ' + str(failed) + ' cases failed' if failed else 'NOT CAUGHT'}: {what}", flush=True)
    print(f"{caught} passed, {len(WRONG) - caught} failed")
    sys.exit(caught != len(WRONG))
