#!/usr/bin/env python3
"""Lists what changed in the contracts, type invariants, definitions and laws since a commit, old above new, by crate.

usage: tools/list_changes.py COMMIT [--laws | --gone]

Public functions with their signatures and clauses, ghost members, constants and definitions of specs/; with --laws the
public statements of proofs/ instead, but for answers and invariants of single functions. --gone lists by crate what
functions, definitions and public statements are gone. By text alone, with the reader of the kit's list of contracts: a
reader judges.
"""
import collections
import os
import re
import subprocess
import sys
import tempfile

KIT = os.path.dirname(subprocess.run(['rt', 'doc'], check=True, capture_output=True, text=True).stdout.strip())
sys.path.insert(0, os.path.join(KIT, 'port'))
import contracts  # noqa: E402

ROOT = os.path.join(os.path.dirname(os.path.abspath(__file__)), '..')
OWN_OF_A_FUNCTION = ('Answers.antt', 'Invariants.antt', 'Lib.antt')


def old_tree(commit, into):
    archive = subprocess.run(['git', '-C', ROOT, 'archive', commit, 'crates'], check=True, capture_output=True).stdout
    subprocess.run(['tar', '-x', '-C', into], input=archive, check=True)
    return into


def laws(root):
    """The public statements of proofs/: (crate, name) to the list of their types."""
    found = collections.defaultdict(list)
    for crate in sorted(os.listdir(f'{root}/crates')):
        for at, _, names in os.walk(f'{root}/crates/{crate}/proofs'):
            for name in sorted(names):
                if name.endswith('.antt') and name not in OWN_OF_A_FUNCTION:
                    for law, text in statements(open(f'{at}/{name}').read()):
                        found[crate, law].append(text)
    return found


def statements(raw):
    lines = [re.sub(r'\s*-- .*|^--.*', '', line) for line in raw.split('\n')]
    i = 0
    while i < len(lines):
        m = re.match(r'( *)(?:abbrev |opaque |unfoldable )*pub (?:abbrev |record |data )?(\S+) :(?= |$)', lines[i])
        if not m:
            i += 1
            continue
        depth, text = len(m.group(1)), [lines[i][m.end():]]
        i += 1
        while i < len(lines) and lines[i].strip() and len(lines[i]) - len(lines[i].lstrip()) > depth \
                and not lines[i].lstrip().startswith('unfolding '):
            text.append(lines[i])
            i += 1
        yield m.group(2), contracts.squeeze(' '.join(text))


def functions(out):
    """Each function by crate and name, those of impls and traits by their type too."""
    found = collections.defaultdict(list)
    for (crate, path, place, name), items in out.items():
        if path.startswith('src'):
            for item in items:
                found[crate, name].append((place, item))
    return found


def told(item):
    clauses = [f'{kind} {name} {{ {text} }}'.replace('  ', ' ') for kind, name, text in item['requires'] + item['ensures']]
    return [contracts.squeeze(('pub ' if item['pub'] else '') + 'fn ' + item['sign'])] + clauses


def pairs(old, new):
    """Old and new functions of one name: by their place, then in their order."""
    left, taken = [], set()
    for place, item in old:
        at = next((k for k, (p, _) in enumerate(new) if p == place and k not in taken), None)
        if at is None:
            left.append((place, item))
        else:
            taken.add(at)
            yield item, new[at][1]
    rest = [it for k, (_, it) in enumerate(new) if k not in taken]
    for (place, item), after in zip(left, rest):
        yield item, after


def block(lines):
    return ['```diff', *lines, '```', '']


def of_functions(crate, old, new):
    lines = []
    for (c, name), items in sorted(old.items()):
        if c != crate:
            continue
        for before, after in pairs(items, new.get((c, name), [])):
            if not (before['pub'] or after['pub']):
                continue
            a, b = told(before), told(after)
            if a != b:
                lines += [f' {crate}::{name}'] + [f'-{x}' for x in a if x not in b] + [f'+{x}' for x in b if x not in a]
    return lines


def of_texts(crate, old, new, name_of):
    lines = []
    for key in sorted(set(old) & set(new)):
        if key[0] == crate and sorted(old[key]) != sorted(new[key]):
            gone = [x for x in old[key] if x not in new[key]]
            more = [x for x in new[key] if x not in old[key]]
            lines += [f' {name_of(key)}'] + [f'-{x}' for x in gone] + [f'+{x}' for x in more]
    return lines


def gone(what, old, new):
    by_crate = collections.defaultdict(list)
    for key in sorted(set(old) - set(new)):
        by_crate[key[0]].append(' '.join(key[1:]))
    print(f'{what}: {sum(map(len, by_crate.values()))}')
    for crate, names in by_crate.items():
        print(f'    {crate}: {", ".join(names)}')


def main():
    commit = sys.argv[1]
    with tempfile.TemporaryDirectory() as into:
        before = old_tree(commit, into)
        old_laws, new_laws = laws(before), laws(ROOT)
        _, old_out, old_ghosts, old_specs, _, _ = contracts.read(before)
        crates, new_out, new_ghosts, new_specs, _, _ = contracts.read(ROOT)
        old_functions, new_functions = functions(old_out), functions(new_out)
        if '--gone' in sys.argv:
            for what, was, now in (('functions', old_functions, new_functions), ('definitions', old_specs, new_specs),
                                   ('ghost members and constants', old_ghosts, new_ghosts), ('laws', old_laws, new_laws)):
                gone(what, was, now)
            return
        for crate in crates:
            if '--laws' in sys.argv:
                own = of_texts(crate, old_laws, new_laws, lambda key: f'law {key[0]} {key[1]}')
            else:
                own = of_functions(crate, old_functions, new_functions)
                own += of_texts(crate, old_ghosts, new_ghosts, lambda key: ' '.join(key))
                own += of_texts(crate, old_specs, new_specs, lambda key: f'definition {key[0]} {key[1]}')
            if own:
                print(f'### {crate}\n')
                print('\n'.join(block(own)))


if __name__ == '__main__':
    main()
