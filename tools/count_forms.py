#!/usr/bin/env python3
"""Counts the places in src/ that today's language has a form for, by the eight points of docs/DESIGN-PASS.md.

usage: tools/count_forms.py [--places] [FOLDER]

FOLDER is a checkout (default: this one); --places prints each place behind its count.
"""
import collections
import glob
import os
import re
import sys

FUNCTION = re.compile(
    r'^[ ]*(?:pub(?:\(\w+\))? )?(?:const )?(?:extern "C" )?fn (\w+)(<[^>(]*>)?\((.*?)\)\s*(?:-> ([^{]*?))?'
    r'(?=\s*(?:requires|ensures|\{|;\n|where))', re.M | re.S)


def sources(folder):
    for path in sorted(glob.glob(os.path.join(folder, 'crates/*/src/*.rt'))):
        yield path.split('/crates/')[-1].split('/')[0], open(path).read()


def functions(folder):
    """Each function: crate, name, parameters, result, clauses, body."""
    for crate, text in sources(folder):
        for m in FUNCTION.finditer(text):
            at = m.end()
            depth, clauses_from = 0, at
            # the body is the first block that no `requires` or `ensures` stands before
            while True:
                clause = re.match(r'\s*(requires|ensures\*?)\s*\w*\s*\{', text[at:])
                if not clause:
                    break
                at += clause.end()
                depth = 1
                while depth:
                    depth += {'{': 1, '}': -1}.get(text[at], 0)
                    at += 1
            clauses = text[clauses_from:at]
            rest = re.match(r'\s*\{', text[at:])
            body = ''
            if rest:
                begin = at = at + rest.end()
                depth = 1
                while depth:
                    depth += {'{': 1, '}': -1}.get(text[at], 0)
                    at += 1
                body = text[begin:at - 1]
            yield crate, m.group(1), ' '.join(m.group(3).split()), ' '.join((m.group(4) or '').split()), clauses, body


SHAPE = (r'\b(Refused|Stopped|Over|Missing|NoPath|End|Full|Fails|Nowhere|Endless|Short|Long|Unfilled|None)\b')
NUMBER = re.compile(r'number|_row$|_if$|lowest|lower_of|run_passes|pass_backward|test_repeats|check_book|time_nodes')
BY_HAND = re.compile(
    r'^(same_\w+|is_(arrive|fake|refused|one)|kind_of|kind_number|no_report|write_report|read_report|blank_node'
    r'|no_link_event|with_\w+_alt|letter|bits_before|(for|back)ward_before|copy_entries|word|double_word|digit|glyph'
    r'|smaller|(number|kept|nodes)_of|\w+_(report|nodes|count|length)|lower_of)$')
BUFFER = re.compile(r'\b(list|joins|scratch|stack|old|from|to|out|times): &(?:mut )?\[')
COUNT = re.compile(r'\b(n|count|top|at|used): usize')


def point1(folder):
    for crate, text in sources(folder):
        for m in re.finditer(r'^(?:pub )?enum (\w+)[^{]*\{(.*?)^\}', text, re.M | re.S):
            if re.search(SHAPE, m.group(2)):
                yield crate, 'enum ' + m.group(1)
        for m in re.finditer(r'^(?:pub )?struct (\w+)[^{]*\{(.*?)^\}', text, re.M | re.S):
            for flag in re.findall(r'(\w+): bool', m.group(2)):
                yield crate, 'flag %s.%s' % (m.group(1), flag)
    for crate, name, _, result, _, _ in functions(folder):
        if result == 'u32' and NUMBER.search(name) and not name.startswith('keldurap'):
            yield crate, 'number ' + name


def point2(folder):
    shapes = collections.defaultdict(list)
    for crate, name, _, _, _, body in functions(folder):
        tokens = re.findall(r"\w+|[^\w\s]", re.sub(r'//[^\n]*', '', body))
        if len(tokens) >= 20:
            shape = ' '.join('x' if re.match(r'\w', t) and t not in (
                'if', 'else', 'while', 'loop', 'match', 'return', 'let', 'mut', 'for', 'in') else t for t in tokens)
            shapes[shape].append((crate, name))
    for places in shapes.values():
        if len(places) > 1:
            for crate, name in places:
                yield crate, 'as %s: %s' % ('::'.join(places[0]), name)


def point3(folder):
    for crate, name, _, _, _, body in functions(folder):
        for m in re.finditer(r'^\s*while (.*?) \{$', body, re.M):
            for index in re.findall(r'\b(\w+) (?:\+=|-=) 1;', body):
                if re.search(r'\b%s\b' % index, m.group(1)):
                    yield crate, name
                    break
            else:
                if re.search(r'\b(\w+) = \1 [+-] 1;', body):
                    yield crate, name


def point4(folder):
    for crate, name, _, _, _, _ in functions(folder):
        if BY_HAND.match(name):
            yield crate, name


def clause_places(folder):
    facts = collections.defaultdict(list)
    for crate, name, _, _, clauses, _ in functions(folder):
        for m in re.finditer(r'requires\s*\w*\s*\{(.*?)\}\s*(?=requires|ensures|$)', clauses, re.S):
            facts[' '.join(m.group(1).split())].append((crate, name))
    return facts


def point5(folder):
    for fact, places in sorted(clause_places(folder).items(), key=lambda x: -len(x[1])):
        if len(places) >= 3 and len(fact) > 10:
            for crate, name in places:
                yield crate, '%s: %s' % (name, fact)


def point6(folder):
    for crate, name, parameters, _, _, _ in functions(folder):
        if BUFFER.search(parameters) and COUNT.search(parameters):
            yield crate, name


def point7(folder):
    for crate, name, parameters, _, _, _ in functions(folder):
        for flag in re.findall(r'\b(\w+): bool', parameters):
            yield crate, '%s(%s)' % (name, flag)


def point8(folder):
    for path in sorted(glob.glob(os.path.join(folder, 'crates/*/proofs/**/Answers.antt'), recursive=True)):
        crate, place = path.split('/crates/')[-1].split('/proofs/')
        for answer in re.findall(r'^pub ([\w\-*]+) :', open(path).read(), re.M):
            yield crate, '%s %s' % (place[:-len('/Answers.antt')], answer)


POINTS = [
    ('own enums like Option or Result, flags, numbers', point1),
    ('functions alike but for names and constants', point2),
    ('loops that count by hand', point3),
    ('equality, order, copies, conversions by hand', point4),
    ('facts in three or more contracts', point5),
    ('buffers with a count beside', point6),
    ('flags that choose a step', point7),
    ('answers written for proofs', point8),
]


def main():
    words = [w for w in sys.argv[1:] if w != '--places']
    folder = words[0] if words else os.path.join(os.path.dirname(os.path.abspath(__file__)), '..')
    for number, (title, point) in enumerate(POINTS, 1):
        places = list(point(os.path.abspath(folder)))
        print('%d. %4d  %s' % (number, len(places), title))
        if '--places' in sys.argv:
            for crate, what in places:
                print('        %s %s' % (crate, what))


if __name__ == '__main__':
    main()
