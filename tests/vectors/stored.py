"""What the makers of stored vectors share: they write, compare or list the files stdin and stdout of a crate."""

import os
import sys

CRATES = os.path.join(os.path.dirname(os.path.abspath(__file__)), "..", "..", "crates")


def keep(crate, stdin, lines, summary):
    """Does what the command line asks for, with the bytes of standard input and for each line of standard output its vector's name."""
    files = {"stdin": bytes(stdin), "stdout": "".join(line + "\n" for _, line in lines).encode()}
    if "--list" in sys.argv[1:]:
        for number, (name, line) in enumerate(lines, 1):
            print(f"{number}: {line}: {name}")
        return
    for name, data in files.items():
        path = os.path.join(CRATES, crate, name)
        if "--check" not in sys.argv[1:]:
            with open(path, "wb") as f:
                f.write(data)
            continue
        with open(path, "rb") as f:
            if f.read() != data:
                sys.exit(f"crates/{crate}/{name} is not what tests/vectors/make_{crate}.py writes")
    print(f"{crate}: {summary}")
