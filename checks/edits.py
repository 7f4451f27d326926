"""The wrong bodies of a file wrong-bodies.txt.

edits.py --has FILE [NAME]    whether there is one, or the one of that name
edits.py --fit FILE..         sees that each text that an edit replaces stands in its file, once
"""
import os
import sys


def paragraphs(path):
    """The name and the lines of each edit."""
    with open(path, encoding='utf-8') as text:
        for paragraph in text.read().split('\n\n'):
            lines = [line for line in paragraph.split('\n') if line]
            if lines:
                yield lines[0], lines[1:]


def misfits(crate, lines):
    """What an edit replaces that does not stand once in what the lines before have made."""
    texts, path, old = {}, None, None
    for line in lines:
        word, _, rest = line.partition(': ')
        if word == 'file':
            path = os.path.join(crate, rest)
            if path not in texts:
                with open(path, encoding='utf-8') as file:
                    texts[path] = file.read()
        elif word == 'old':
            old = rest
        elif word == 'new':
            if texts[path].count(old) != 1:
                yield old
            texts[path] = texts[path].replace(old, rest)


def fit(files):
    count = bad = 0
    for path in files:
        for name, lines in paragraphs(path):
            count += 1
            for old in misfits(os.path.dirname(path), lines):
                bad += 1
                print(f'{path}: {name}: does not stand once: {old}')
    print(f'{count - bad} passed, {bad} failed')
    return bad == 0 and count > 0


def has(path, name=None):
    return os.path.isfile(path) and any(name in (None, it) for it, _ in paragraphs(path))


if __name__ == '__main__':
    done = fit(sys.argv[2:]) if sys.argv[1] == '--fit' else has(*sys.argv[2:])
    sys.exit(0 if done else 1)
