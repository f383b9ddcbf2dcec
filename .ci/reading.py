"""Reads a source by the table of the grammar, and tells which rows it takes: so the pages can be asked for an example of each."""
import re


class Unread(Exception):
    pass


def kinds_of(source, top):
    """The kinds of the tokens of a source that breaks no rule of spelling."""
    read = {}
    for page in ("Signs", "Words"):
        text = (top / f"crates/sim_lexer/specs/{page}.antt").read_text()
        read |= dict(re.findall(r'\(codes "([^"]+)", k\.(\w+)\)', text))
    signs = "|".join(re.escape(it) for it in sorted((it for it in read if not it[0].isalpha()), key=len, reverse=True))
    piece = re.compile(rf"""\s+|(?P<comment>!|comment\b)[^;]*;|(?P<text>"(?:[^"\n]|"")*")|(?P<char>'(?:![0-9]+!|[^\n])')|(?P<number>[0-9]\w*)"""
                       rf"""|(?P<word>[a-z]\w*)|(?P<sign>{signs})""", re.I)
    kinds, at = [], 0
    while at < len(source):
        found = piece.match(source, at)
        if not found:
            raise Unread(source[at:at + 10])
        at, word = found.end(), (found["word"] or "").lower()
        if word == "end":
            at += re.match(r"(?:(?!;|\b(?:end|else|when|otherwise)\b).)*", source[at:], re.S | re.I).end()
        if word and kinds and (kinds[-1], word) in (("And", "then"), ("Or", "else")):
            kinds[-1] = {"then": "AndThen", "else": "OrElse"}[word]
        elif found["text"] and kinds and kinds[-1] == "Text":
            pass
        elif word or found["sign"]:
            kinds.append(read.get(word or found["sign"], "Identifier"))
        else:
            kinds += [kind for group, kind in (("text", "Text"), ("char", "Character"), ("number", "Integer")) if found[group]]
    return kinds + ["EndOfSource"]


class Reader:
    """The next token chooses the row of a part, so reading never goes back."""

    def __init__(self, grammar):
        self.rows, self.used, self.firsts = grammar.rows, set(), {}

    def begins_row(self, row):
        found = set(row["at"] or [])
        for how, what in row["right"]:
            found |= set(what) if how in ("token", "any") else self.begins(what)
            if how in ("token", "Once"):
                break
        return found

    def begins(self, part):
        if part not in self.firsts:
            self.firsts[part] = set()
            self.firsts[part] = set().union(*map(self.begins_row, self.rows[part]))
        return self.firsts[part]

    def read_part(self, part):
        for number, row in enumerate(self.rows[part]):
            if row["at"] is None or self.kinds[self.at] in self.begins_row(row):
                break
        else:
            raise Unread(part)
        self.taken.add((part, number))
        for how, what in row["right"]:
            if how == "token":
                if self.kinds[self.at] not in what:
                    raise Unread(part)
                self.at += 1
            elif how == "any":
                while self.kinds[self.at] in what:
                    self.at += 1
            elif how == "Once":
                self.read_part(what)
            else:
                while self.kinds[self.at] in self.begins(what):
                    self.read_part(what)
                    if how == "Maybe":
                        break

    def read(self, source, top):
        """Whether it is a program; its rows count as used then."""
        self.kinds, self.at, self.taken = kinds_of(source, top), 0, set()
        try:
            self.read_part("Program")
        except Unread:
            return False
        self.used |= self.taken
        return self.at == len(self.kinds)
