"""A text that is changed token by token, with a list of what was changed and of what rides otherwise after it."""
from typing import NamedTuple

from profiles.words import tokens_of


class Edit(NamedTuple):
    """What was changed in a line, or 0 for the whole text; `rides` where a ride may be another one than in BRouter."""
    line: int
    told: str
    rides: bool

    def __str__(self):
        return f'{"!" if self.rides else " "} {f"line {self.line}" if self.line else "whole text"}: {self.told}'


class EditedText:
    """A text with what stands for its tokens, before them and behind them. Its lines stay where they are."""

    def __init__(self, text):
        self.text = text
        self.tokens = tokens_of(text)
        self.edits = []
        self.instead = {}
        self.before = {}
        self.behind = {}
        self.last_lines = []

    def tell(self, line, told, rides=False):
        self.edits.append(Edit(line, told, rides))

    def replace(self, token, text):
        self.instead[token.place] = text

    def wrap(self, first, last, before, behind):
        """Puts words before a token and behind another one, on their lines."""
        self.before[first.place] = before + b' '
        self.behind[last.place] = b' ' + behind

    def spelled(self, token):
        """What stands for a token."""
        return self.instead.get(token.place, token.text)

    def written(self):
        """The text with all changes."""
        pieces, end = [], 0
        for token in self.tokens:
            before, behind = self.before.get(token.place, b''), self.behind.get(token.place, b'')
            pieces += [self.text[end:token.start], before, self.spelled(token), behind]
            end = token.end
        text = b''.join(pieces) + self.text[end:]
        if self.last_lines and not text.endswith(b'\n'):
            text += b'\n'
        return text + b''.join(line + b'\n' for line in self.last_lines)
