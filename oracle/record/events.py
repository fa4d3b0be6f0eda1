# Random sequences of calls on the Rust's event stream, inside document 01's domain of equality: events.py RECORD COUNT SEED
# A sequence is a line: the call, `=` and the answer for each call, with `;` between.
import random
import sys

from recorder import Recorder

CALLS = ['token', 'error', 'begin', 'end', 'end_error', 'bookmark', 'truncate', 'remove', 'pop']
PUSHING = [8, 2, 4, 2, 1, 1, 1, 1, 1]
SETTLING = [0.5, 0.2, 0.2, 6, 2, 0, 1, 8, 20]
LAST_START = 65000


def balanced(events):
    """Whether events close what they open, and nothing else."""
    depth = 0
    for event in events:
        depth += {'begin': 1, 'end': -1}.get(event, 0)
        if depth < 0:
            return False
    return depth == 0


class Sequence:
    """A sequence: by turns mostly pushes, and mostly ends, removes and pops. Of an event its name is kept, of a token its end."""

    def __init__(self, draw, stream):
        self.draw, self.stream = draw, stream
        self.events, self.opens, self.bookmarks = [], [], []
        self.last_end, self.token_popped = 0, False

    def line(self):
        """The sequence as a line."""
        phase = self.draw.choice([4, 8, 15, 60])
        self.stream.ask('open')
        line = []
        for turn in range(self.draw.randrange(40, 600)):
            weights = SETTLING if turn // phase % 5 > 1 else PUSHING
            call = self.drawn(self.draw.choices(CALLS, weights)[0])
            if call:
                self.follow(*call.split())
                line.append(call + '=' + self.stream.ask(call))
        return ';'.join(line)

    def drawn(self, name):
        """A call of a name, or none where it cannot be made."""
        if name in ('end', 'end_error'):
            return name if self.opens else None
        if name == 'pop':
            return None if self.opens or self.bookmarks else name
        if name == 'token':
            return self.token() if self.last_end <= LAST_START else None
        if name == 'error':
            return self.error()
        if name == 'begin':
            return 'begin %d' % self.draw.randrange(100)
        if name in ('truncate', 'remove'):
            positions = [p for p in self.bookmarks if p <= len(self.events) and (name == 'remove' or self.can_truncate(p))]
            return '%s %d' % (name, self.draw.choice(positions)) if positions else None
        return name

    def token(self):
        """A token at or behind the last token's end."""
        start = self.last_end + self.draw.choice([0, 0, 0, 1, 5])
        end = start + self.draw.choice([0, 1, 1, 2, 7, 200])
        return 'token %d %d %d' % (self.draw.randrange(100), start, end)

    def error(self):
        """An error anywhere."""
        start = self.draw.randrange(65536)
        return 'error %d %d %d' % (self.draw.randrange(65536), start, self.draw.randrange(start, 65536))

    def can_truncate(self, position):
        """Whether a truncation leaves no bookmark past the end, is taken, and is inside the domain."""
        token_left = any(isinstance(event, int) for event in self.events[:position])
        return position == max(self.bookmarks) and balanced(self.events[position:]) and (token_left or not self.token_popped)

    def follow(self, name, *numbers):
        """Follows a call."""
        if name == 'token':
            self.last_end = int(numbers[2])
            self.events.append(self.last_end)
        elif name == 'error':
            self.events.append(name)
        elif name == 'begin':
            self.opens.append(len(self.events))
            self.events.append(name)
        elif name == 'end_error' and self.opens[-1] + 1 == len(self.events):
            self.opens.pop()
            self.events.pop()
        elif name in ('end', 'end_error'):
            self.opens.pop()
            self.events.append('end')
        elif name == 'bookmark':
            self.bookmarks.append(len(self.events))
        elif name == 'remove':
            self.bookmarks.remove(int(numbers[0]))
        elif name == 'truncate':
            del self.events[int(numbers[0]):]
            self.last_end = ([0] + [event for event in self.events if isinstance(event, int)])[-1]
        elif name == 'pop' and self.events:
            self.token_popped |= isinstance(self.events.pop(0), int)


def main(program, count, seed):
    """Prints the sequences of a seed."""
    draw = random.Random(int(seed))
    stream = Recorder(program, 'events')
    for _ in range(int(count)):
        print(Sequence(draw, stream).line())


main(*sys.argv[1:])
