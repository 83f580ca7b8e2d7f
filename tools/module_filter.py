"""What the scripts share that change a module of LLVM, as text: from standard input to standard output, or a refusal."""
import pathlib
import re
import sys


class Refused(Exception):
    """Why a module can't be changed."""


def changes(change, doc: str) -> int:
    """Runs a script with this documentation, in which its usage stands, and returns its exit status. A refusal writes nothing."""
    if sys.argv[1:] in (["-h"], ["--help"]):
        print(doc)
        return 0
    if sys.argv[1:]:
        print("usage:", re.search("tools/.*", doc)[0], file=sys.stderr)
        return 64
    try:
        sys.stdout.write(change(sys.stdin.read()))
    except Refused as why:
        print(f"{pathlib.Path(sys.argv[0]).stem}: refused: {why}", file=sys.stderr)
        return 1
    return 0
