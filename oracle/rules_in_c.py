"""Writes the YARA rules that stand in C files as string literals, one file each: rules_in_c.py FOLDER FILE.."""
import pathlib
import re
import sys

LITERAL = r'"(?:[^"\\\n]|\\.)*"'
LITERALS = rf'{LITERAL}(?:\s*{LITERAL})*'
ESCAPE = r'\\(x[0-9A-Fa-f]{2}|[0-7]{1,3}|.)'
RULE = r'\brule\b.*\{.*\bcondition\b'
NAMED = {'\n': '', 'n': '\n', 't': '\t', 'r': '\r', 'a': '\a', 'b': '\b', 'f': '\f', 'v': '\v'}


def meaning(escape):
    """The character that a C escape sequence stands for; a byte is the character of its number."""
    rest = escape.group(1)
    if len(rest) > 1 and rest[0] == 'x':
        return chr(int(rest[1:], 16))
    if rest[0] in '01234567':
        return chr(int(rest, 8) & 255)
    return NAMED.get(rest, rest)


def value(literals):
    """The text of adjacent C string literals."""
    bodies = (literal[1:-1] for literal in re.findall(LITERAL, literals, re.S))
    return ''.join(re.sub(ESCAPE, meaning, body, flags=re.S) for body in bodies)


def main(folder, *files):
    """Writes the rules of all files."""
    for file in map(pathlib.Path, files):
        texts = map(value, re.findall(LITERALS, file.read_text('latin-1'), re.S))
        rules = [text for text in texts if re.search(RULE, text, re.S)]
        for number, rule in enumerate(rules, 1):
            pathlib.Path(folder, f'{file.stem}-{number:04}.yar').write_bytes(rule.encode('latin-1'))


main(*sys.argv[1:])
