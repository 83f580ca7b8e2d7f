#!/usr/bin/env python3
"""The pages of `ccq show` and `ccq judge --page` as texts of their program: crates/cc_show/src/page.rt, in which
docs/pages/index.html is cut into what goes before, between and after its run and its report, and
crates/cc_cli/src/judging/fault_page.rt, in which docs/pages/fault.html is cut in the same way at its fault and its
calls. Nobody reads these texts, so they are folded: only a paragraph of the page begins a line.

    tools/page_text.py            compares the texts with the pages; exit status 0 if they are their parts
    tools/page_text.py --write    writes them
"""
import re
import sys

sys.dont_write_bytecode = True
import written
from sources import TOP, Unreadable

# Each page, its text, and the two parts that the program writes, each between its tags.
PAGES = [
    ("docs/pages/index.html", "crates/cc_show/src/page.rt", "run", "report"),
    ("docs/pages/fault.html", "crates/cc_cli/src/judging/fault_page.rt", "fault", "calls"),
]
WIDTH = 118  # and the backslash that continues the literal, or its end


def folded(text):
    """A text as the lines of a literal. No line begins with a space, which the literal would lose."""
    for paragraph in re.split(r"(?<=\n\n)", text):
        escaped = re.sub("^ ", r"\\x20", paragraph.replace("\\", r"\\").replace('"', r"\"").replace("\n", r"\n"))
        line = ""
        for sign in re.findall(r"(?:\\.|[^\\]) *", escaped):
            if len(line + sign) > WIDTH:
                yield line
                line = ""
            line += sign
        yield line


def text_of(page, first, second):
    """The source of the program's texts of a page."""
    content = (TOP / page).read_text()
    tags = (rf'(.*<script type="text/plain" id="{first}">)[^<]*'
            rf'(</script>.*<script type="text/plain" id="{second}">)[^<]*(</script>.*)')
    parts = re.fullmatch(tags, content, re.DOTALL)
    if not parts or not content.isascii():
        raise Unreadable(f"{page} hasn't its {first} and its {second}, or isn't ASCII")
    text = f"//! The fixed text of the page. It is written from {page} by tools/page_text.py.\n"
    whats = (f"before the {first}", f"between the {first} and the {second}", f"after the {second}")
    for name, what, part in zip(("FRONT", "MIDDLE", "BACK"), whats, parts.groups()):
        literal = "\\\n".join(["", *folded(part)])
        text += f'\n/// The text {what}.\npub const {name}: &[u8] = b"{literal}";\n'
    return text


if __name__ == "__main__":
    sys.exit(written.main(__doc__, lambda: {text: text_of(page, *parts) for page, text, *parts in PAGES}))
