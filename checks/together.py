"""Tries the wrong bodies of a crate, those of several functions in one check.

together.py TREE CRATE [NAME]    tries those of crates/CRATE/wrong-bodies.txt, or the one of a name

TREE is a copy of the repository, which this changes. A function is proved by its own body and the
contracts of what it calls, so one check of several wrong bodies refuses each in its own function.
One that is not refused there, or that changes more than one body, is tried alone. It prints a
verdict for each, and a count at the end. A wrong body is refused at a clause, in an answer that no
longer holds, or only for a name that is gone, which says less of the contract.
"""
import collections
import dataclasses
import difflib
import os
import re
import shutil
import subprocess
import sys

from edits import paragraphs

# How many wrong bodies one check has at most.
MOST = 14

TOLD = re.compile(r'(?:note: )?(?:what antt said of .*?: )?(?:\./)?(\S+?):(\d+):\d+: (.*)')
FN = re.compile(r'(\s*)(?:pub(?:\(\w+\))? )?(?:final )?(?:const )?fn (\w+)')
# A proof file that names what a wrong body took away, and what cites that proof.
NAME = re.compile(r'has no (field|`)|is not in scope|was not admitted|is not a field of')
MISSED = 'NOT REFUSED'


@dataclasses.dataclass
class Edit:
    name: str
    # What lines of which file it replaces: path, first line, the line after the last, other lines.
    parts: list
    # The function whose body it changes, if it changes one alone.
    owner: str


def functions(lines):
    """The functions of a source that rt fmt laid out: name, first line, body's start, last line."""
    for at, line in enumerate(lines):
        found = FN.match(line)
        if not found:
            continue
        indent, name = found.groups()
        body = None
        for end in range(at, len(lines)):
            text = lines[end]
            if body is None and (text == indent + '{' or end == at and text.endswith('{')):
                body = end
            elif body is None and re.fullmatch(rf'{indent}\)?[^ {{}}][^{{}}]*\{{', text):
                body = end
            elif body is not None and text == indent + '}':
                yield name, at, body, end
                break


def within(lines, at, is_body=True):
    """The function in which a line is, or in whose body, the innermost."""
    found = [it for it in functions(lines) if (it[2] + 1 if is_body else it[1]) <= at <= it[3]]
    return max(found, key=lambda it: it[1])[0] if found else None


def read(crate, only):
    """The edits of a crate."""
    for name, lines in paragraphs(f'{crate}/wrong-bodies.txt'):
        if only not in (None, name):
            continue
        texts, path, old = {}, None, None
        for line in lines:
            word, _, rest = line.partition(': ')
            if word == 'file':
                path = rest
                with open(f'{crate}/{path}', encoding='utf-8') as file:
                    texts.setdefault(path, [file.read()] * 2)
            elif word == 'old':
                old = rest
            elif word.startswith('new'):
                texts[path] = [texts[path][0], texts[path][1].replace(old, rest)]
        parts, owners = [], set()
        for path, both in texts.items():
            before, after = (text.split('\n') for text in both)
            changes = difflib.SequenceMatcher(None, before, after, autojunk=False).get_opcodes()
            for kind, start, end, first, last in changes:
                if kind != 'equal':
                    parts.append((path, start, end, after[first:last]))
                    if not all(it.startswith('use ') for it in before[start:end] or ['']):
                        owners.add(within(before, start))
        yield Edit(name, parts, owners.pop() if len(owners) == 1 else None)


def clash(one, other):
    """Whether two edits change the same lines, or functions of one name."""
    return one.owner == other.owner or any(
        path == at and start <= to and begin <= end
        for path, start, end, _ in one.parts
        for at, begin, to, _ in other.parts
    )


def batches(edits):
    """The edits that one check can try, and then those that are tried alone."""
    left = [it for it in edits if it.owner]
    while left:
        batch = []
        for edit in left:
            if len(batch) < MOST and not any(clash(edit, it) for it in batch):
                batch.append(edit)
        left = [it for it in left if it not in batch]
        yield batch
    yield from ([it] for it in edits if not it.owner)


def link(source, to):
    """A copy of what checks keep. They replace what was proved, so links will do for that."""

    def copy(one, other):
        return os.link(one, other) if one.endswith('.oantt') else shutil.copy2(one, other)

    shutil.rmtree(to, ignore_errors=True)
    shutil.copytree(source, to, copy_function=copy)


def check(crate, batch):
    """What a check says of the crate with these edits, and the files that they change."""
    texts = {}
    for path in {it[0] for edit in batch for it in edit.parts}:
        with open(f'{crate}/{path}', encoding='utf-8') as file:
            texts[path] = file.read()
    edited = {path: text.split('\n') for path, text in texts.items()}
    parts = [it for edit in batch for it in edit.parts]
    for path, start, end, new in sorted(parts, key=lambda it: -it[1]):
        edited[path][start:end] = new
    kept, seed = f'{crate}/out/incremental', f'{crate}/out/seed'
    try:
        for path, lines in edited.items():
            with open(f'{crate}/{path}', 'w', encoding='utf-8') as file:
                file.write('\n'.join(lines))
        link(seed, kept)
        words = ['rt', 'check', '--jobs', '1']
        how = {'stdout': subprocess.PIPE, 'stderr': subprocess.STDOUT, 'text': True}
        return subprocess.run(words, cwd=crate, **how), edited
    finally:
        for path, text in texts.items():
            with open(f'{crate}/{path}', 'w', encoding='utf-8') as file:
                file.write(text)


def verdict(told):
    """How a wrong body is refused, by what was told of its function."""
    kinds = {'clause': 'at a clause', 'answer': 'in an answer'}
    for kind, is_it in (
        ('clause', lambda path, text: path.startswith('src/')),
        ('answer', lambda path, text: not NAME.search(text)),
    ):
        for path, line, text in told:
            if is_it(path, text):
                return f'refused {kinds[kind]}', f'{path}:{line}: {text}'
    return 'refused for a name', '{}:{}: {}'.format(*told[0])


def tell(edit, how, why=''):
    print(f"{edit.name}: {how}{': ' if why else ''}{why[:160]}", flush=True)
    return how


def attempt(crate, batch):
    """Tries some edits, and gives how each ends."""
    ran, edited = check(crate, batch)
    lines = ran.stdout.rstrip().split('\n')
    if ran.returncode == 0 and len(batch) == 1:
        return [tell(batch[0], MISSED)]
    told = [found.groups() for found in map(TOLD.match, lines) if found]
    told = [it for it in told if 'not proved' in it[2] or it[2].startswith('error')]
    is_read = any(it.startswith('logic=not-proved') for it in lines)
    if len(batch) == 1:
        missed = next((it for it in lines if 'does not cover this function' in it), None)
        if is_read and told and not missed:
            return [tell(batch[0], *verdict(told))]
        if is_read and not missed:
            return [tell(batch[0], 'refused with no goal told')]
        why = missed or next((it for it in lines if ': error' in it), lines[-1])
        return [tell(batch[0], 'NO VERDICT', why)]
    ends = []
    for edit in batch:
        own = [
            (path, line, text)
            for path, line, text in told
            if is_read
            and (
                edit.owner in path.split('/')[:-1]
                if path.startswith('proofs/')
                else within(edited.get(path, []), int(line) - 1, is_body=False) == edit.owner
            )
        ]
        ends += [tell(edit, *verdict(own))] if own else attempt(crate, [edit])
    return ends


def main(tree, name, only=None):
    crate = f'{tree}/crates/{name}'
    if subprocess.run(['rt', 'check'], cwd=crate, stdout=subprocess.DEVNULL).returncode:
        sys.exit(f'{name} is not proved as it stands')
    link(f'{crate}/out/incremental', f'{crate}/out/seed')
    ends = [how for batch in batches([*read(crate, only)]) for how in attempt(crate, batch)]
    counts = collections.Counter(ends)
    print(f'{name}: tried {len(ends)}:', ', '.join(f'{n} {it}' for it, n in sorted(counts.items())))
    return all(it.startswith('refused') for it in ends) and ends


if __name__ == '__main__':
    sys.exit(0 if main(*sys.argv[1:]) else 1)
