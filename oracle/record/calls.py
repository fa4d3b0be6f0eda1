# Random sequences of calls on the Rust's window, inside document 01's domain of equality: calls.py RECORD COUNT SEED
# A sequence is a line: the source in hexadecimal, then `;`, the call, `=` and the answer for each call.
import random
import sys

from recorder import Recorder

PIECES = ['rule', 'and', 'x', 'ab', '_1', '$a', '#a', '@a', '!a', '1', '4KB', '0x1F', '0o17', '2.5', '"s"', '"\\""', '"""t\n"""', '/r/i', '/*c*/',
          '//l\n', ' ', '  ', '\t', '\xa0', '\n', '\r\n', '<<', '==', '!=', '..', '=', '{', '}', '(', ')', '[', ']', '-', '|', '4D', '5A', '~1F',
          'AB', '10', '??', 'a\u0663', '\u2003']
CALLS = ['next', 'peek', 'has_more', 'bookmark', 'restore', 'remove', 'index', 'pattern', 'jump']
SHORT_PEEKS = [0, 0, 0, 1, 1, 1, 2, 2, 3, 3, 4, 5, 7]
MOST_BOOKMARKS = 64


class Sequence:
    """A sequence on a source that is drawn. A second window, the probe, makes the same calls, and looks first at what each would fetch."""

    def __init__(self, draw, window, probe):
        self.draw, self.window, self.probe = draw, window, probe
        self.weights = [draw.choice([2, 4, 12])] + [draw.choice([0, 1, 4]) for _ in range(6)] + [draw.choice([0, 1]) for _ in range(2)]
        self.source = ''.join(draw.choice(PIECES) for _ in range(draw.randrange(80))).encode().hex()
        self.index, self.bookmarks = 0, []

    def line(self):
        """The sequence as a line; it ends where a call would fetch a token outside of the domain."""
        self.ask('open ' + self.source)
        line = [self.source]
        for _ in range(self.draw.randrange(20, 160)):
            call = self.drawn()
            if call and self.fetches_outside(call):
                break
            if call and not self.passes_bookmarks(call):
                line.append(call + '=' + self.made(call))
        return ';'.join(line)

    def ask(self, call):
        """The window's answer; the probe makes the call too."""
        self.probe.ask(call)
        return self.window.ask(call)

    def drawn(self):
        """A call, or none where the one that is drawn cannot be made."""
        call = self.draw.choices(CALLS, self.weights)[0]
        if call == 'peek':
            return 'peek %d' % self.draw.choice(SHORT_PEEKS + [self.draw.randrange(40), self.draw.choice([1000, 65535])])
        if call in ('restore', 'remove'):
            return '%s %d' % (call, self.draw.choice(self.bookmarks)) if self.bookmarks else None
        if call == 'bookmark' and len(self.bookmarks) == MOST_BOOKMARKS:
            return None
        return call

    def fetches_outside(self, call):
        """Whether an INVALID_UTF8 or UNKNOWN is among the tokens up to the one that a call looks at."""
        name, *argument = call.split()
        if name not in ('next', 'peek', 'has_more'):
            return False
        for n in range(int(argument[0]) + 1 if argument else 1):
            token = self.probe.ask('peek %d' % n)
            if token == 'none':
                return False
            if token.split()[0] in ('81', '82'):
                return True
        return False

    def passes_bookmarks(self, call):
        """Whether a call is a next that hands out a token while all bookmarks lie ahead of the one behind it."""
        ahead = bool(self.bookmarks) and min(self.bookmarks) > self.index + 1
        return call == 'next' and ahead and self.probe.ask('peek 0') != 'none'

    def made(self, call):
        """The answer to a call, which is followed."""
        answer = self.ask(call)
        name, *argument = call.split()
        if name == 'next' and answer != 'none':
            self.index += 1
        elif name == 'bookmark':
            self.bookmarks.append(self.index)
        elif name == 'restore':
            self.index = int(argument[0])
        elif name == 'remove':
            self.bookmarks.remove(int(argument[0]))
        return answer


def main(program, count, seed):
    """Prints the sequences of a seed."""
    draw = random.Random(int(seed))
    window, probe = Recorder(program, 'window'), Recorder(program, 'window')
    for _ in range(int(count)):
        print(Sequence(draw, window, probe).line())


main(*sys.argv[1:])
