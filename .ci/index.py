"""The index of all definitions: each page of definitions of each crate, with the sentence at its head."""
import re


def sentences(lines, mark):
    """The comment that a file begins with, up to the end of its first sentence."""
    text = ""
    for line in lines:
        if not line.startswith(mark):
            break
        text += " " + line[len(mark):].strip()
        if re.search(r"[.:;]$", text) and text.rstrip().endswith("."):
            break
    found = re.match(r"\s*(.*?\.)(?= [A-Z`]|$)", text)
    return (found[1] if found else text).strip()


def index(top):
    """The whole page."""
    names = [line.split(":")[0].split()[0] for line in (top / "crates.txt").read_text().splitlines() if line and not line.startswith("#")]
    page = ["# Index of definitions", "",
            "Each page of definitions of each crate, lowest crates first, with the sentence at its head. `.ci/documents --write` makes this page.", ""]
    for name in names:
        crate = top / "crates" / name
        pages = [it for it in sorted((crate / "specs").rglob("*.antt")) if it.name != "Lib.antt"]
        root = next(it for it in (crate / "src/lib.rt", crate / "src/main.rt") if it.exists())
        if not pages:
            continue
        page += [f"## {name}", "", sentences(root.read_text().splitlines(), "//!"), ""]
        for it in pages:
            place = it.relative_to(top)
            page.append(f"- [{it.stem}](../{place}): {sentences(it.read_text().splitlines(), '--')}")
        page.append("")
    return "\n".join(page)
