"""What a script writes from other files, and compares with them: each script of tools/ that has --write imports it."""
import difflib
import pathlib
import sys

from sources import TOP, Unreadable


def main(doc, made):
    """Does what the words of the command line ask for, and returns the exit status. `made` gives the text that each
    path of the tree has to have, or None for a file that has to go; `doc` is the script's documentation."""
    script = f"tools/{pathlib.Path(sys.argv[0]).name}"
    if sys.argv[1:] not in ([], ["--write"]):
        is_help = sys.argv[1:] in (["-h"], ["--help"])
        print(doc.strip() if is_help else f"usage: {script} [--write]", file=sys.stdout if is_help else sys.stderr)
        return 0 if is_help else 64
    try:
        found = {path: text for path, text in made().items() if text != kept(path)}
    except Unreadable as why:
        print(f"{script}: {why}", file=sys.stderr)
        return 1
    for path, text in found.items():
        if not sys.argv[1:]:
            lines = (kept(path) or "").splitlines(), (text or "").splitlines()
            print("\n".join(difflib.unified_diff(*lines, path, "what is due", lineterm="", n=2)))
        elif text is None:
            (TOP / path).unlink()
        else:
            (TOP / path).parent.mkdir(exist_ok=True)
            (TOP / path).write_text(text)
    if found and not sys.argv[1:]:
        print(f"{script}: {', '.join(found)}: not what is due; if the change is meant, {script} --write writes it")
    return bool(found) and not sys.argv[1:]


def kept(path):
    return (TOP / path).read_text() if (TOP / path).exists() else None


def between(path, begin, end, inside):
    """The text of a file of the tree with this between its two marks."""
    text = kept(path)
    if text.count(begin) != 1 or text.count(end) != 1:
        raise Unreadable(f"{path} has not the two marks between which the part stands")
    return {path: text.split(begin)[0] + begin + inside + end + text.split(end)[1]}
