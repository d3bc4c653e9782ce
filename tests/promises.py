#!/usr/bin/env python3
"""promises.py [--write]: makes the lists of docs/PROMISES.md from marks in the crates.

A mark is a line that names what states a promise, by the heading of its section:

    // PROMISES inverses-newest-first: JobLog, UndoLog

In a source it gives the section's list `Contract`, in a file of specs (after `--`) the list `Definitions`, and
in must-fail/bodies.md (by itself) the list `Refused`. The file must declare each name. A mark may also have
words, with names in backquotes: every call of `Caller`.

With --write the lists are written. Else what is stale is printed, and the status is 1 if anything is.
"""
import re
import sys
from pathlib import Path

ROOT = Path(__file__).resolve().parents[1]
PAGE = ROOT / "docs/PROMISES.md"
WITHOUT_LISTS = ("in-one-sentence", "what-is-trusted")
MARK = re.compile(r"^(?://|--)? ?PROMISES ([a-z0-9-]+): (.*)$", re.M)
KINDS = {"Contract": "src/**/*.rt", "Definitions": "specs/**/*.antt", "Refused": "must-fail/bodies.md"}
DECLARED = {
    "Contract": r"\b(?:fn|struct|enum|trait|type)\s+{}\b",
    "Definitions": r"^(?:\w+ )?pub (?:record |data )?{}\b",
    "Refused": r"^# {}$",
}


def heading(title):
    """A heading as links name it."""
    return re.sub(r"[^a-z0-9_ -]", "", title.lower()).replace(" ", "-")


def marks(wrong):
    """The lists: for each section and kind, the names with their links, highest crate first."""
    lists = {}
    names = re.findall(r"^(\w+).*:", (ROOT / "crates.txt").read_text(encoding="utf-8"), re.M)
    for crate in (ROOT / "crates" / name for name in reversed(names)):
        for kind, pattern in KINDS.items():
            for file in sorted(crate.glob(pattern)):
                text, found = file.read_text(encoding="utf-8"), {}
                for section, words in MARK.findall(text):
                    found.setdefault(section, []).extend(
                        f"`{part}`" if re.fullmatch(r"[\w:]+", part) else part for part in words.split(", "))
                for section, parts in found.items():
                    for name in re.findall(r"`(?:\w+::)?(\w+)`", " ".join(parts)):
                        if not re.search(DECLARED[kind].format(name), text, re.M):
                            wrong.append(f"{file.relative_to(ROOT)} declares no {name}, which its mark names")
                    link = file.parent if kind == "Refused" else file
                    link = f"../{link.relative_to(ROOT)}"
                    named = ", ".join(parts)
                    named = f"{named} ([{crate.name}]({link}))" if kind == "Refused" else f"[{named}]({link})"
                    lists.setdefault(section, {}).setdefault(kind, []).append(named)
    return lists


def main(words):
    wrong, sections = [], PAGE.read_text(encoding="utf-8").split("\n## ")
    lists = marks(wrong)
    for place, section in enumerate(sections[1:], 1):
        of = heading(section.partition("\n")[0])
        if of in WITHOUT_LISTS:
            continue
        made = lists.pop(of, {})
        wrong += (f"docs/PROMISES.md: no mark gives {of} a list {kind}" for kind in KINDS if kind not in made)
        new = [f"- {kind}: {('; ' if kind == 'Refused' else ', ').join(made[kind])}." for kind in KINDS if kind in made]
        text = re.sub(rf"^- (?:{'|'.join(KINDS)}): .*\n?", "", section, flags=re.M).strip()
        sections[place] = text + "\n\n" + "\n".join(new) + "\n"
    wrong += (f"docs/PROMISES.md: no section {of}, which marks name" for of in lists)
    page = "\n## ".join(sections)
    if "--write" in words:
        PAGE.write_text(page, encoding="utf-8")
    elif page != PAGE.read_text(encoding="utf-8"):
        wrong.append("docs/PROMISES.md: its lists are stale: tests/promises.py --write")
    print("\n".join(wrong), end="\n" if wrong else "")
    return bool(wrong)


if __name__ == "__main__":
    sys.exit(main(sys.argv[1:]))
