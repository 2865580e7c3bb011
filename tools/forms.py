#!/usr/bin/env python3
"""Places in crates/*/src that are written in an older form, by the points of docs/DESIGN-PASS.md.

    tools/forms.py            the counts, a line for each point and kind
    tools/forms.py 3          the places of point 3, a line each
    tools/forms.py --other    the counts found in the other way, for each point

It goes by text: a place is one to look at, and not always one to change.
"""
import re
import sys
from collections import Counter, defaultdict
from pathlib import Path

ROOT = Path(__file__).resolve().parent.parent
HEAD = re.compile(r'^( *)(?:pub(?:\([a-z]+\))? )?(?:extern "C" )?fn (\w+)', re.M)


def sources():
    for path in sorted(ROOT.glob('crates/*/src/**/*.rt')):
        yield path.relative_to(ROOT).as_posix()[len('crates/'):], path.read_text()


def plain(text):
    """The text without comments and strings, as long as it was."""
    blank = lambda m: re.sub(r'[^\n]', ' ', m.group())
    return re.sub(r'//[^\n]*|b?"(?:[^"\\\n]|\\.)*"', blank, text)


def closing(text, at):
    """The place behind the bracket that closes the one at `at`."""
    depth = 0
    for i in range(at, len(text)):
        if text[i] in '({[':
            depth += 1
        elif text[i] in ')}]':
            depth -= 1
            if depth == 0:
                return i + 1
    return len(text)


def body(rest):
    """Where the body begins, behind the clauses, which have braces too; at the `;` of a function that is only declared."""
    at = 0
    for found in re.finditer(r'[\[{;]', rest):
        if found.start() < at:
            continue
        clause = re.search(r'^\s*(requires|ensures|ghost)\b', rest[at:found.start()], re.M)
        if found.group() == ';' or found.group() == '{' and not clause:
            return found.start()
        at = closing(rest, found.start())
    return len(rest)


class Function:
    def __init__(self, file, text, match):
        self.file, self.name = file, match.group(2)
        self.line = text.count('\n', 0, match.start(2)) + 1
        opening = text.index('(', match.end())
        behind = closing(text, opening)
        self.parameters = text[opening + 1:behind - 1]
        rest = text[behind:]
        start = body(rest)
        self.contract = rest[:start]
        self.body = rest[start:closing(rest, start)] if rest[start:start + 1] == '{' else ''

    def place(self, what):
        return f'{self.file}:{self.line}', f'{self.name}: {what}'


def functions():
    for file, text in sources():
        text = plain(text)
        for match in HEAD.finditer(text):
            yield Function(file, text, match)


def typed(kind):
    for file, text in sources():
        text = plain(text)
        for match in re.finditer(rf'^\s*(?:pub )?{kind} (\w+)[^;{{]*\{{', text, re.M):
            inside = text[match.end():closing(text, match.end() - 1) - 1]
            yield file, text.count('\n', 0, match.start(1)) + 1, match.group(1), inside


SAYS = re.compile(r'^\s*(Whole|Refused|Bad|BadPage|Good|Over|Nowhere|NobodyWaits|NoRoute|Fault|Written|Listed|Parted|Ended'
                  r'|FirstRefused|FirstLess)\b', re.M)
HAND = re.compile(r'^(wide\w*|page_number|joined|word|first_long|long_at|image_size|word_at|word_in|byte_in|entry|same\w*|by_number|and_then'
                  r'|by_record|by_next|greater|lesser|is_above|copy_at|put_text|put_word|clear|fill|widen_\w+|print_\w+|print|of_\w+|record_for'
                  r'|latest_of|within\w*|few|last_digit|spell|predecessor_at|byte_at|count_in|is_over)$')
GROUPS = {
    'cells, waiting, queue': ('cells', 'waiting', 'queue'),
    'places, layout': ('places', 'layout'),
    'five lent tables': ('times', 'moves', 'preds', 'marks', 'list'),
    'older, newer': ('older', 'newer'),
    'pages, distances, threshold': ('pages', 'distances', 'threshold'),
    'kept, count': ('kept', 'count'),
    'kept, directory': ('kept', 'directory'),
    'two images and offsets': ('first', 'second', 'offsets'),
}
BESIDE = (('line', 'at'), ('bytes', 'at'), ('bytes', 'from'), ('kept', 'count'), ('kept', 'k'), ('kept', 'i'), ('keys', 'lo'), ('layout', 'lo'),
          ('older', 'newer'), ('space', 'map'), ('list', 'count'))


def point_1():
    for file, line, name, inside in typed('enum'):
        said = SAYS.findall(inside)
        if said:
            yield 'enum like Option or Result', f'{file}:{line}', f'{name}: {", ".join(said)}'
    for file, line, name, inside in typed('struct'):
        if re.search(r':\s*bool\b', inside):
            yield 'flag with a value beside it', f'{file}:{line}', name
    for f in functions():
        if re.search(r'\b(df|over): bool', f.parameters):
            yield 'flag with a value beside it', *f.place('flag')
    for kind in ('enum', 'struct'):
        for file, line, name, inside in typed(kind):
            if re.search(r'number: u8|(Refused|Fault)\(u8\)|status: u8', inside):
                yield 'number for a kind or a refusal', f'{file}:{line}', name
    for f in functions():
        if re.search(r'\b(refuse|Refused|Fault)\(\d+\b|number: \d+|return 1[12];', f.body):
            yield 'number for a kind or a refusal', *f.place('by number')
        if re.search(r'\b(code|kind|number): u8', f.parameters):
            yield 'number for a kind or a refusal', *f.place('parameter')


def point_2():
    bodies = defaultdict(list)
    for f in functions():
        shape = re.sub(r'\bu(8|16|32|64|size)\b', 'N', f.body)
        shape = re.sub(r'\s+', ' ', shape)
        if len(shape) > 12:
            bodies[shape].append(f)
    for shape, twins in bodies.items():
        if len(twins) > 1:
            for f in twins:
                yield 'function of the same body', *f.place('as ' + ', '.join(t.name for t in twins if t is not f))
    names = defaultdict(list)
    for file, text in sources():
        for match in re.finditer(r'^\s*(?:pub )?const (\w+): (\w+) = ([^;]+);', plain(text), re.M):
            names[match.group(1), match.group(3)].append((file, text.count('\n', 0, match.start(1)) + 1))
    for (name, value), found in names.items():
        if len(found) > 1:
            for file, line in found:
                yield 'constant of the same name and value', f'{file}:{line}', f'{name} = {value}'


def point_3():
    for f in functions():
        for match in re.finditer(r'\b(while|loop)\b', f.body):
            opening = f.body.index('{', match.end())
            inside = f.body[opening:closing(f.body, opening)]
            counted = re.findall(r'\b(\w+) [+-]= (?:1|4);', inside)
            kind = 'index counted by hand' if counted else 'another while or loop'
            yield kind, *f.place(f'{match.group(1)} {", ".join(dict.fromkeys(counted))}')


def point_4():
    for f in functions():
        if HAND.match(f.name) and '#[test]' not in f.body:
            yield 'by hand', *f.place('by name')


def point_5():
    clauses = Counter()
    where = defaultdict(list)
    for f in functions():
        names = set(re.findall(r'\b(\w+):', f.parameters))
        for group, members in GROUPS.items():
            if names.issuperset(members):
                yield f'together: {group}', *f.place(group)
        for clause in re.findall(r'requires \w*\s*\{(.*?)\}\n', f.contract, re.S):
            clause = re.sub(r'\s+', ' ', clause).strip().replace('.old', '.now')
            clauses[clause] += 1
            where[clause].append(f)
    for clause, times in clauses.items():
        if times > 2:
            for f in where[clause]:
                yield 'clause in three contracts or more', *f.place(clause)


def point_6():
    for f in functions():
        names = set(re.findall(r'\b(\w+):', f.parameters))
        for pair in BESIDE:
            if names.issuperset(pair):
                yield 'buffer with a place or a length, or parallel arrays', *f.place(', '.join(pair))
                break


def point_7():
    for f in functions():
        if re.search(r'\bif (query\.)?df\b|\bif turns == 1|call\[1[23]\] == |kind == ', f.body):
            yield 'switch on the step', *f.place('switch')
        if f.name in ('run_call', 'run_calls', 'run_cases'):
            yield 'the same run with another step', *f.place('runner')


def point_8():
    for path in sorted(ROOT.glob('crates/*/proofs/**/Answers.antt')):
        yield 'file of answers', path.relative_to(ROOT).as_posix()[len('crates/'):], f'{len(path.read_text().splitlines())} lines'


POINTS = {str(i): globals()[f'point_{i}'] for i in range(1, 9)}


def other():
    """Another way for the points that can be counted by single words."""
    text = {file: plain(content) for file, content in sources()}
    every = '\n'.join(text.values())
    count = lambda pattern: len(re.findall(pattern, every, re.M))
    yield '1', 'declared enums', count(r'^\s*(?:pub )?enum ')
    yield '1', 'words `bool` in structs and parameters', count(r'\b\w+: bool\b')
    yield '1', 'words `Refused`, `Fault`, `Bad` before a bracket', count(r'\b(?:Refused|Fault|Bad|BadPage)\b\s*[({]')
    yield '2', 'declared constants of 256, 2048 or a stream', count(r'^\s*(?:pub )?const \w+: \w+ = (?:256|2048|0|1);')
    yield '3', 'lines that add 1 to or take 1 from a variable', count(r'^\s*\w+ [+-]= 1;')
    yield '3', 'words `while` and `loop`', count(r'\b(?:while|loop)\b')
    yield '4', 'casts by `as`', count(r'\bas (?:u8|u16|u32|u64|usize)\b')
    yield '5', 'parameters `cells`, `waiting`, `queue`', count(r'\b(?:cells|waiting|queue): &')
    yield '5', 'functions of eight parameters or more', sum(len(re.findall(r'\b\w+:', f.parameters)) > 7 for f in functions())
    yield '6', 'parameters `at`, `from`, `count`, `lo`, `hi`, `k` that are `usize`', count(r'\b(?:at|from|count|lo|hi|k): usize')
    yield '7', 'closures and bounds on `Fn`', count(r'\bFn(?:Once|Mut)?\(|\|\w+\| ')
    yield '8', 'lines of answers', sum(len(p.read_text().splitlines()) for p in ROOT.glob('crates/*/proofs/**/Answers.antt'))


def main():
    if sys.argv[1:] == ['--other']:
        for point, what, number in other():
            print(f'{point}  {number:5}  {what}')
    elif sys.argv[1:]:
        for point in sys.argv[1:]:
            for kind, where, what in POINTS[point]():
                print(f'{point}  {kind:52} {where:40} {what}')
    else:
        for point, found in POINTS.items():
            kinds = Counter(kind for kind, _, _ in found())
            for kind, number in kinds.items():
                print(f'{point}  {number:5}  {kind}')


if __name__ == '__main__':
    main()
