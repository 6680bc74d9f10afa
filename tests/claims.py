"""Each claim that docs/PROVED.md names is stated in the file named there and has its theorem in that crate's proofs.

A claim is a capitalised name in a line '- Where: FILE: NAMES; proof ..', or in the column 'stated in' of a table, where 'there' stands for
the file of the row above."""

import pathlib
import re
import sys

ROOT = pathlib.Path(__file__).resolve().parent.parent
CLAIM = re.compile(r"`([A-Z][A-Za-z0-9]*)`")
PAGE = re.compile(r"`(([a-z0-9_]+)/specs/\w+\.antt)`")


def read(path):
    """The text of a file of the project, empty where there is none."""
    file = ROOT / path
    return file.read_text(encoding="utf-8") if file.exists() else ""


def places():
    """What the chapter of claims says about where they are stated."""
    chapter = read("docs/PROVED.md").split("## The claims")[1].split("\n## ")[0]
    for line in chapter.splitlines():
        cells = line.split(" | ")
        if line.startswith("- Where: "):
            yield line.split("; ")[0]
        elif len(cells) == 4:
            yield cells[2]


def stated():
    """The claims of the chapter: each with its file in specs/ and its crate."""
    page = crate = None
    for place in places():
        named = PAGE.search(place)
        if named:
            page, crate = named.groups()
        for claim in CLAIM.findall(place):
            yield claim, page, crate


def checked_pages(crate):
    """The pages of proofs that the prover reads: those that proofs/Lib.antt lists."""
    for name in re.findall(r"^(?:pub )?mod (\w+)$", read(f"crates/{crate}/proofs/Lib.antt"), re.M):
        yield read(f"crates/{crate}/proofs/{name}.antt")


def complaint(claim, page, crate):
    """What is missing of a claim, or None."""
    if not re.search(rf"^(?:abbrev )?pub (?:record )?{claim} : Type 0", read(f"crates/{page}"), re.M):
        return f"{claim} is not stated in crates/{page}"
    theorem = re.compile(rf"^pub [\w-]+ : {claim}$", re.M)
    if not any(theorem.search(text) for text in checked_pages(crate)):
        return f"{claim} has no theorem in crates/{crate}/proofs"
    return None


claims = list(stated())
complaints = [line for line in (complaint(*claim) for claim in claims) if line]
print("\n".join(complaints) or f"{len(claims)} claims, each with its theorem")
sys.exit(1 if complaints or not claims else 0)
