"""The grammar as rules in words, read from the table that the compiler is proved against."""
import re
from pathlib import Path

NAMED = {"Identifier": "ID", "Integer": "INTEGER", "Character": "CHARACTER", "Text": "TEXT", "EndOfSource": "END",
         "AndThen": '"and then"', "OrElse": '"or else"'}


def spellings(top):
    """How each kind of token is written: the signs, and the keywords where no sign says the same."""
    found = dict(NAMED)
    for page in ("Signs", "Words"):
        text = (top / f"crates/sim_lexer/specs/{page}.antt").read_text()
        for spelling, kind in re.findall(r'\(codes "([^"]+)", k\.(\w+)\)', text):
            found.setdefault(kind, f'"{spelling}"')
    return found


def tokens(text):
    return re.findall(r"[\w.]+|∷|\[\]|[()=]", text)


def words(part):
    """A part's name in small letters, with hyphens."""
    return re.sub(r"(?<!^)([A-Z])", r"-\1", part).lower()


class Grammar:
    """The parts of the table, in order, each with its alternatives."""

    def __init__(self, top):
        text = (top / "crates/sim_tree/specs/Grammar.antt").read_text()
        self.spelt = spellings(Path(top))
        self.lists = {name: re.findall(r"k\.(\w+)", body) for name, body in re.findall(r"^(\w+) =([^=]*?∷ \[\])$", text, re.M)}
        self.rows = {part: self.read_rows(body) for part, body in re.findall(r"^rows (\w+) =(.*(?:\n    .*)*)", text, re.M)}
        self.uses = {part: [] for part in self.rows}
        for part, rows in self.rows.items():
            for row in rows:
                for times, used in row["parts"]:
                    self.uses[used].append(times)
        # A part that is only optional or repeated is written where it stands, if it stands there alone or is short.
        self.inline = {part for part, uses in self.uses.items() if uses and "Once" not in uses
                       and (len(uses) == 1 or len(self.rows[part]) == 1 and len(self.rows[part][0]["right"]) <= 2)}
        self.inline.discard("Arguments")

    def kinds(self, text, local):
        """The kinds of tokens that an expression of the table lists."""
        name = text.strip("() ")
        if name in local:
            return local[name]
        if name in self.lists:
            return self.lists[name]
        return re.findall(r"k\.(\w+)", text)

    def read_rows(self, body):
        local = {name: re.findall(r"k\.(\w+)", kinds) for name, kinds in re.findall(r"let (\w+) = (.*?) in ", body)}
        rows = []
        for piece in re.split(r"(?<!\.)\b(?=At |Else )", body)[1:]:
            first = re.match(r"At (just k\.\w+|\([^()]*\)|\w+)|Else", piece)
            at = self.kinds(first[1], local) if first[1] else None
            symbols = re.findall(r"(Kept) (\(just k\.\w+\)|\w+)|(Mark|Any) k\.(\w+)|Of (Once|Maybe|Many) (\w+)|\b(Here)\b",
                                 piece[first.end():])
            right = []
            for kept, kinds, marked, kind, times, part, _ in symbols:
                if kept:
                    right.append(("token", self.kinds(kinds, local)))
                elif marked:
                    right.append(("any" if marked == "Any" else "token", [kind]))
                elif part:
                    right.append((times, part))
            rows.append({"at": at, "right": right, "parts": [it for it in right if it[0] in ("Once", "Maybe", "Many")]})
        return rows

    def token(self, kinds):
        spelt = [self.spelt[kind] for kind in kinds]
        return spelt[0] if len(spelt) == 1 else "( " + " | ".join(spelt) + " )"

    def symbol(self, symbol):
        how, what = symbol
        if how == "token":
            return self.token(what)
        if how == "any":
            return "{ " + self.token(what) + " }"
        if what in self.inline:
            inner = " | ".join(self.alternatives(what))
            inner = re.sub(r"^\( ([^()]*) \)$", r"\1", inner)
        else:
            inner = words(what)
        return {"Once": inner, "Maybe": f"[ {inner} ]", "Many": "{ " + inner + " }"}[how]

    def alternatives(self, part):
        shown, taken = [], []
        for row in self.rows[part]:
            right = list(row["right"])
            if right and right[0] == ("token", row["at"]):
                right[0] = ("token", [kind for kind in row["at"] if kind not in taken])
            taken += row["at"] or []
            text = " ".join(self.symbol(symbol) for symbol in right)
            text = re.sub(r"^\( ([^()]*) \)$", r"\1", text)
            if not text:
                text = f"before {self.token(row['at'])}" if row["at"] else "nothing"
            shown.append(text)
        return shown

    def rules(self):
        return {words(part): self.alternatives(part) for part in self.rows if part not in self.inline}

    def page(self):
        """All rules, one alternative a line."""
        width = max(len(name) for name in self.rules())
        lines = []
        for name, shown in self.rules().items():
            lines.append(f"{name.ljust(width)} = {shown[0]}")
            lines += [" " * width + " | " + text for text in shown[1:]]
        return "\n".join(lines) + "\n"


def read_page(text):
    """The rules that a fence of a page writes, each with its alternatives."""
    rules, name = {}, None
    for line in text.splitlines():
        if found := re.match(r"([a-z-]+)\s+= (.*)$", line):
            name = found[1]
            rules[name] = [found[2].strip()]
        elif (found := re.match(r"\s+\| (.*)$", line)) and name:
            rules[name].append(found[1].strip())
        elif line.strip():
            rules.setdefault(line.strip(), [])
    return rules
