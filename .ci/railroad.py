"""Pictures of the rules of the grammar, one SVG a rule: read along the line, in the direction of the arrows."""
from html import escape

from grammar import words

ROW, GAP, BEND = 10, 10, 8


class Box:
    """A word or sign (round), or another rule (square)."""

    def __init__(self, text, is_token):
        self.text, self.is_token = text, is_token
        self.width, self.up, self.down = 8 * len(text) + 18, 13, 13

    def draw(self, x, y):
        round_ = 13 if self.is_token else 0
        return [f'<rect x="{x}" y="{y - 13}" width="{self.width}" height="26" rx="{round_}" class="{"token" if self.is_token else "rule"}"/>',
                f'<text x="{x + self.width / 2:g}" y="{y + 4}">{escape(self.text)}</text>']


class Row:
    """Parts one behind the other."""

    def __init__(self, parts):
        self.parts = parts
        self.width = sum(it.width for it in parts) + GAP * max(len(parts) - 1, 0) if parts else 20
        self.up = max([it.up for it in parts], default=0)
        self.down = max([it.down for it in parts], default=0)

    def draw(self, x, y):
        drawn, at = [], x
        for part in self.parts:
            if at > x:
                drawn.append(f'<path d="M{at} {y}h{GAP}"/>')
                at += GAP
            drawn += part.draw(at, y)
            at += part.width
        return drawn if self.parts else [f'<path d="M{x} {y}h{self.width}"/>']


class Choice:
    """The first part on the line, the others below."""

    def __init__(self, parts):
        self.parts = parts
        self.width = max(it.width for it in parts) + 4 * BEND
        self.up = parts[0].up
        self.down = parts[0].down + sum(ROW + it.up + it.down for it in parts[1:])

    def draw(self, x, y):
        drawn, at = [], y
        for number, part in enumerate(self.parts):
            if number:
                at += self.parts[number - 1].down + ROW + part.up
                drawn.append(f'<path d="M{x} {y}q{BEND} 0 {BEND} {BEND}V{at - BEND}q0 {BEND} {BEND} {BEND}"/>')
                drawn.append(f'<path d="M{x + self.width} {y}q-{BEND} 0 -{BEND} {BEND}V{at - BEND}q0 {BEND} -{BEND} {BEND}"/>')
            else:
                drawn.append(f'<path d="M{x} {y}h{2 * BEND}M{x + self.width - 2 * BEND} {y}h{2 * BEND}"/>')
            left = x + 2 * BEND
            drawn += part.draw(left, at)
            rest = self.width - 4 * BEND - part.width
            if rest:
                drawn.append(f'<path d="M{left + part.width} {at}h{rest}"/>')
        return drawn


class Loop:
    """A part that may be taken again."""

    def __init__(self, part):
        self.part = part
        self.width, self.up, self.down = part.width + 4 * BEND, part.up, part.down + ROW

    def draw(self, x, y):
        left, right, below = x + 2 * BEND, x + self.width - 2 * BEND, y + self.down
        return [f'<path d="M{x} {y}h{2 * BEND}M{right} {y}h{2 * BEND}"/>', *self.part.draw(left, y),
                f'<path d="M{right} {y}q{BEND} 0 {BEND} {BEND}V{below - BEND}q0 {BEND} -{BEND} {BEND}H{left}q-{BEND} 0 -{BEND} -{BEND}V{y + BEND}'
                f'q0 -{BEND} {BEND} -{BEND}"/>', f'<path class="arrow" d="M{(left + right) // 2 + 4} {below - 4}l-8 4l8 4z"/>']


def choice(parts):
    return parts[0] if len(parts) == 1 else Choice(parts)


def token(grammar, kinds):
    return choice([Box(grammar.spelt[kind].strip('"'), True) for kind in kinds])


def symbol(grammar, how, what):
    if how == "token":
        return token(grammar, what)
    if how == "any":
        return Choice([Row([]), Loop(token(grammar, what))])
    inner = rule(grammar, what) if what in grammar.inline else Box(words(what), False)
    return {"Once": inner, "Maybe": Choice([Row([]), inner]), "Many": Choice([Row([]), Loop(inner)])}[how]


def rule(grammar, part):
    shown, taken = [], []
    for row in grammar.rows[part]:
        right = list(row["right"])
        if right and right[0] == ("token", row["at"]):
            right[0] = ("token", [kind for kind in row["at"] if kind not in taken])
        taken += row["at"] or []
        parts = [symbol(grammar, *it) for it in right]
        shown.append(parts[0] if len(parts) == 1 else Row(parts))
    return choice(shown)


def pictures(grammar):
    """The picture of each rule, by its name."""
    found = {}
    for part in grammar.rows:
        if part in grammar.inline:
            continue
        body = rule(grammar, part)
        width, y = body.width + 60, body.up + 10
        height = y + body.down + 10
        drawn = [f'<path d="M10 {y - 8}v16M10 {y}h20"/>', *body.draw(30, y), f'<path d="M{30 + body.width} {y}h20m0 -8v16"/>']
        found[words(part)] = "\n".join([
            f'<svg xmlns="http://www.w3.org/2000/svg" width="{width}" height="{height}" viewBox="0 0 {width} {height}">',
            "<style>rect{stroke:#444}.token{fill:#fff7d6}.rule{fill:#e3efff}path{fill:none;stroke:#444}.arrow{fill:#444}"
            "text{font:13px monospace;text-anchor:middle}</style>",
            f'<rect width="{width}" height="{height}" style="fill:#fff;stroke:none"/>', *drawn, "</svg>"]) + "\n"
    return found
