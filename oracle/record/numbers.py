# Sequences of calls of the window, one a line, from the recorder's words to the port's numbers (include/rattle.h): numbers.py < WORDS
# In words a sequence is the source in hexadecimal, then `;`, the call, `=` and the answer for each call. In numbers it is the source, two
# numbers for each call, `;` and four numbers for each answer; a space stands before each number.
import sys

CALLS = ['next', 'peek', 'has_more', 'bookmark', 'restore', 'remove', 'pattern', 'jump', 'index']
ANSWERS = {'none': [0, 0, 0, 0], 'true': [2, 1, 0, 0], 'false': [2, 0, 0, 0], 'ok': [4, 0, 0, 0]}


def call_numbers(name, argument=0):
    """Which call, and its argument."""
    return [CALLS.index(name), int(argument)]


def answer_numbers(answer):
    """Which answer, and its values: a token is three numbers in words, an index one, of a bookmark behind its name."""
    if answer in ANSWERS:
        return ANSWERS[answer]
    numbers = [int(word) for word in answer.removeprefix('bookmark ').split()]
    return {1: [3, *numbers, 0, 0], 3: [1, *numbers]}[len(numbers)]


def numbered(line):
    """A sequence in numbers."""
    source, *asked = line.split(';')
    asked = [one.split('=') for one in asked]
    calls = [n for call, _ in asked for n in call_numbers(*call.split())]
    answers = [n for _, answer in asked for n in answer_numbers(answer)]
    return ''.join([source, *(f' {n}' for n in calls), ';', *(f' {n}' for n in answers)])


for line in sys.stdin:
    print(numbered(line.rstrip('\n')))
