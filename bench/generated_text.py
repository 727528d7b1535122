"""What the generated files and modules share: texts that tell where their pieces stand, and what leads to what."""


class Text:
    """A text that tells where each piece of it stands."""

    def __init__(self, rng, blanks):
        self.rng, self.blanks = rng, blanks
        self.pieces, self.at = [], 0

    def put(self, piece):
        """Puts a piece behind the others, and gives where it starts."""
        start = self.at
        self.pieces.append(piece)
        self.at += len(piece)
        return start

    def blank(self, needed=False):
        if needed or self.rng.random() < .7:
            self.put(self.rng.choice(self.blanks))

    def __str__(self):
        return ''.join(self.pieces)


def reached(leads, start):
    """What is reached from the start, one step or more away."""
    seen, todo = set(), list(leads[start])
    while todo:
        other = todo.pop()
        if other not in seen:
            seen.add(other)
            todo += leads[other]
    return seen
