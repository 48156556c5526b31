"""A certificate's text (docs/FORMATS.md, "A certificate"). Its first line tells its form: 1, or 2 for labels with a bound."""
import re
from collections import namedtuple

from .refusals import Refusal

COST_LIMIT, BUFFER_LIMIT = 2**127, 2**63
DIGITS = re.compile(rb'0|[1-9][0-9]{0,38}')
Leg = namedtuple('Leg', 'walk cost labels')
# a link, what a walk that ends with it costs, and what that walk leaves in both buffers
Label = namedtuple('Label', 'link cost down up')


def are_below(limits, texts):
    """Whether texts spell numbers without a needless zero, each below its limit."""
    return all(DIGITS.fullmatch(text) and int(text) < limit for limit, text in zip(limits, texts))


class Reader:
    """The legs of the lines so far; `stage` says what may stand next."""

    def __init__(self, links):
        self.names = {b'%d/%d/%s' % (it.way, it.segment, b'b' if it.back else b'f'): number for number, it in enumerate(links)}
        self.form, self.legs, self.walk, self.stage = 0, [], [], 'unbegun'

    def take(self, line):
        """Takes in the next line, or says that it can't stand there."""
        match self.stage, line.split(b' '):
            case 'unbegun', [b'certificate', (b'1' | b'2') as form]:
                self.form, self.stage = int(form), 'opened'
            case 'opened' | 'labelled', [b'leg', *names] if all(it in self.names for it in names):
                self.walk, self.stage = [self.names[it] for it in names], 'walked'
            case 'walked', [b'cost', cost] if are_below([COST_LIMIT], [cost]):
                self.legs.append(Leg(self.walk, int(cost), []))
                self.stage = 'labelled'
            case 'labelled', [b'label', name, *numbers] if name in self.names and len(numbers) == 3 and are_below(
                    [COST_LIMIT, BUFFER_LIMIT, BUFFER_LIMIT], numbers):
                self.legs[-1].labels.append(Label(self.names[name], *map(int, numbers)))
            case 'opened' | 'labelled', [b'end']:
                self.stage = 'ended'
            case _:
                return False
        return True


def read_certificate(text, links):
    """The form and the legs of a text, or the refusal of its first line at fault."""
    reader, (*lines, rest) = Reader(links), text.split(b'\n')
    for number, line in enumerate(lines, 1):
        if not reader.take(line):
            raise Refusal(2, f'certificate line {number}')
    if rest or reader.stage != 'ended':
        raise Refusal(2, f'certificate line {len(lines) + 1}')
    return reader.form, reader.legs
