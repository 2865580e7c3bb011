"""Wrong words behind `yard`, and wrong texts: each mistake has its message, its line and its status, and nothing goes
to standard output.

    run()    every command with words missing, too many, unknown, twice or out of bounds; what help says; and every
             mistake that a map's text or a list of coils can have
"""
import os
import pty
import re
import select
import shlex
import tempfile
from pathlib import Path

from harness import FAILED, GOOD, REFUSED, ROOT, check, yard

from answers.made import normal
from make_coils_examples import record
from make_search_cases import M7

# What each command takes: operands, of which one with `…` stands for one or more, and options.
COMMANDS = {'check': (['MAP…'], ['--json']), 'show': (['MAP'], []), 'make': (['TEXT'], ['-o']),
            'route': (['MAP', 'FROM', 'TO'], ['--length', '--json']),
            'times': (['MAP', 'FROM'], ['--length', '--json']),
            'lists': (['MAP', 'FROM'], ['--length', '--frames', '--json']), 'order': (['MAP…'], []),
            'records': (['make or show', 'FILE'], ['-o']), 'dot': (['MAP'], ['--from', '--length'])}
OPTIONS = ['--json', '--length', '--frames', '--from', '-o']

# Good operands of each command, and what its options need.
GIVEN = {'check': ['m7.map'], 'show': ['m7.map'], 'make': ['m7.txt'], 'route': ['m7.map', '0', '6'],
         'times': ['m7.map', '0'], 'lists': ['m7.map', '0'], 'order': ['m7.map'], 'records': ['make', 'coils.csv'],
         'dot': ['m7.map']}
VALUES = {'--json': [], '--length': ['8120'], '--frames': ['2'], '--from': ['0'], '-o': ['-']}

# Words that are no number of 16 bits, and how a message shows them.
NO_NUMBERS = [('65536', '65536'), ('-1', '-1'), ('+1', '+1'), ('', ''), (' 1', ' 1'), ('1 ', '1 '), ('1.0', '1.0'),
              ('0x10', '0x10'), ('1e3', '1e3'), ('1,000', '1,000'), ('one', 'one'), ('\uff11', '\uff11'),
              ('1\n', '1\\n'), ('1' * 30, '1' * 24 + '..'), ('4294967296', '4294967296'), ('\x1b[2J', '\\u{1b}[2J'),
              (os.fsdecode(b'\xff'), '\ufffd'), ('"', '\\"'), ('18446744073709551616', '18446744073709551616')]


def check_wrong(folder, words, message, hint=None):
    """Wrong usage: a message with a hint, and nothing else."""
    hint = hint or (words[0] if words and words[0] in COMMANDS else '')
    command = f'yard {hint} --help' if hint else 'yard --help'
    check(f'yard {" ".join(words)!r}', yard(*words, cwd=folder),
          (FAILED, b'', f"yard: {message}; try '{command}'\n".encode()))


# Words

def run_first_word(folder):
    """The command itself."""
    check_wrong(folder, [], 'a command is missing')
    rows = [('chek', 'chek'), ('', ''), ('CHECK', 'CHECK'), ('check ', 'check '), ('-x', '-x'), ('--', '--'),
            ('-', '-'), ('--json', '--json'), ('m7.map', 'm7.map'), ('x' * 24, 'x' * 24), ('x' * 25, 'x' * 24 + '..'),
            ('\x1b[31m\x07', '\\u{1b}[31m\\u{7}'), (os.fsdecode(b'\xff\xfe'), '\ufffd\ufffd'),
            ('say "x"', 'say \\"x\\"')]
    for word, shown in rows:
        check_wrong(folder, [word], f'unknown command "{shown}"')
        check_wrong(folder, [word, 'm7.map'], f'unknown command "{shown}"')
        check_wrong(folder, ['help', word], f'unknown command "{shown}"')
    check_wrong(folder, ['help', 'help'], 'unknown command "help"')
    # words behind what takes none
    for front in (['help', 'check'], ['--help'], ['-h'], ['--version'], ['-V']):
        words = [*front, 'more']
        check_wrong(folder, words, '"more" is one word too many')


def run_operands(folder):
    """Operands that are missing or too many, of each command."""
    for command, (names, _) in COMMANDS.items():
        given = GIVEN[command]
        options = ['-o', '-'] if command == 'make' else []
        for count, name in enumerate(names):
            check_wrong(folder, [command, *given[:count], *options], f'{name} is missing')
            check_wrong(folder, [command, *options, '--', *given[:count]], f'{name} is missing')
        if not names[-1].endswith('…'):
            check_wrong(folder, [command, *given, 'more', *options], '"more" is one word too many')
            check_wrong(folder, [command, *given, *options, 'more', 'and more'], '"more" is one word too many')
            check_wrong(folder, [command, *options, '--', *given, '--json'], '"--json" is one word too many')
            check_wrong(folder, [command, *given, 'x' * 99, *options], f'"{"x" * 24}.." is one word too many')
    check_wrong(folder, ['make', 'm7.txt'], '-o MAP is missing')
    check_wrong(folder, ['make', 'missing.txt'], '-o MAP is missing')
    check_wrong(folder, ['records', 'mak', 'coils.csv'], 'records is followed by make or show, not "mak"')
    check_wrong(folder, ['records', 'coils.csv', 'show'], 'records is followed by make or show, not "coils.csv"')
    check_wrong(folder, ['records', 'show', 'coils', '-o', 'x'], '-o goes with records make')


def run_options(folder):
    """Each option with each command: one of another command, twice, without its value, with one that it does not
    take."""
    for command, (_, taken) in COMMANDS.items():
        given = GIVEN[command]
        for option in OPTIONS:
            values = VALUES[option]
            if option not in taken:
                check_wrong(folder, [command, *given, option, *values], f'{option} is no option of this command')
                check_wrong(folder, [command, option], f'{option} is no option of this command')
                continue
            check_wrong(folder, [command, option, *values, *given, option, *values], f'{option} is given twice')
            if values:
                check_wrong(folder, [command, *given, option], f'{option} needs a value')
        for word in ('-x', '--bogus', '--jsonx', '--JSON', '---', '-json', '-ox', '-o=x', '--output', '-1', '-oo'):
            check_wrong(folder, [command, *given, word], f'unknown option "{word}"')
        check_wrong(folder, [command, *given, '--bogus=5'], 'unknown option "--bogus"')
        check_wrong(folder, [command, *given, os.fsdecode(b'--\xff')], 'unknown option "--\ufffd"')
        check_wrong(folder, [command, *given, '--\x1b[2J'], 'unknown option "--\\u{1b}[2J"')
    for command in ('check', 'route', 'times', 'lists'):
        for word in ('--json=x', '--json=', '--json=true'):
            check_wrong(folder, [command, *GIVEN[command], word], '--json takes no value')
    check_wrong(folder, ['times', 'm7.map', '0', '--length', '1', '--length=1'], '--length is given twice')
    check_wrong(folder, ['times', 'm7.map', '0', '--length', '--json'],
                '--length is a whole number from 0 to 65535, not "--json"')


def run_numbers(folder):
    """Words that should be numbers of 16 bits."""
    check_wrong(folder, ['route', 'm7.map', 'x', 'y'], 'FROM is a whole number from 0 to 65535, not "x"')
    for word, shown in NO_NUMBERS:
        message = f'is a whole number from 0 to 65535, not "{shown}"'
        for command, behind in (('times', []), ('lists', []), ('route', ['6'])):
            check_wrong(folder, [command, '--', 'm7.map', word, *behind], f'FROM {message}')
        check_wrong(folder, ['route', '--', 'm7.map', '0', word], f'TO {message}')
        check_wrong(folder, ['times', 'missing', *(['--'] if word.startswith('-') else []), word], f'FROM {message}')
        for command, (_, taken) in COMMANDS.items():
            for option in set(taken) & {'--length', '--frames', '--from'}:
                check_wrong(folder, [command, *GIVEN[command], option, word], f'{option} {message}')
                check_wrong(folder, [command, *GIVEN[command], f'{option}={word}'], f'{option} {message}')


def run_same_words(folder):
    """Words in another order or form that say the same."""
    def same(*rows):
        first, *others = [yard(*row, cwd=folder) for row in rows]
        check(f'yard {" ".join(rows[0])}: good', (first.status, first.err, first.out != b''), (GOOD, b'', True))
        for row, one in zip(rows[1:], others):
            check(f'yard {" ".join(row)}: the same', one, first)

    same(['times', 'm7.map', '0', '--length', '8120'], ['times', '--length', '8120', 'm7.map', '0'],
         ['times', 'm7.map', '--length=8120', '0'], ['times', '--length=8120', '--', 'm7.map', '0'],
         ['times', 'm7.map', '0', '--length', '08120'], ['times', 'm7.map', '0000', '--length', '000000000008120'])
    same(['lists', 'm7.map', '0', '--frames', '2', '--json'], ['lists', '--json', '--frames=2', 'm7.map', '0'],
         ['lists', 'm7.map', '0', '--json', '--length=0', '--frames', '2'])
    same(['route', 'm7.map', '0', '6'], ['route', '--', 'm7.map', '0', '6'],
         ['route', 'm7.map', '0', '6', '--length', '0'], ['route', 'm7.map', '0', '6', '--length', '65535'],
         ['route', 'm7.map', '--', '0', '6'])
    same(['dot', 'm7.map', '--from', '0'], ['dot', '--from=0', '--', 'm7.map'])
    same(['make', 'm7.txt', '-o', '-'], ['make', '-o', '-', 'm7.txt'], ['make', '-o', '-', '--', 'm7.txt'])
    same(['check', 'm7.map', 'm7.map'], ['check', '--', 'm7.map', 'm7.map'], ['check', 'm7.map', '--', 'm7.map'])
    same(['records', 'make', 'coils.csv'], ['records', 'make', 'coils.csv', '-o', '-'],
         ['records', '-o', '-', 'make', 'coils.csv'], ['records', '--', 'make', 'coils.csv'])


def run_terminal(folder):
    """Records are no text, and don't go to a terminal unless that is asked for."""
    ours, theirs = pty.openpty()
    words = ['records', 'make', 'coils.csv']
    message = "records are not written to a terminal: give -o FILE, or a pipe; try 'yard records --help'"
    check('records make to a terminal', yard(*words, cwd=folder, stdout=theirs),
          (FAILED, b'', f'yard: {message}\n'.encode()))
    check('records make -o - to a terminal', yard(*words, '-o', '-', cwd=folder, stdout=theirs), (GOOD, b'', b''))
    ready, _, _ = select.select([ours], [], [], 5)
    check('a terminal got the records that were asked for', os.read(ours, 100) if ready else b'', record(7, 8120, 0))
    os.close(ours)
    os.close(theirs)


# Help

def run_help(folder):
    overview = yard('--help')
    check('yard --help', (overview.status, overview.err), (GOOD, b''))
    for word in ('-h', 'help'):
        check(f'yard {word}', yard(word), overview)
    text = overview.out.decode()
    check_shape('yard --help', text)
    check('yard --help, commands', re.findall(r'^  (\w+) +\w', text, re.M), list(COMMANDS))
    for command, (names, options) in COMMANDS.items():
        found = yard(command, '--help')
        for words in ([command, '-h'], ['help', command], [command, *GIVEN[command], '--help'],
                      [command, '-h', '--bogus']):
            check(f'yard {" ".join(words)}', yard(*words, cwd=folder), found)
        check(f'yard {command} --help', (found.status, found.err), (GOOD, b''))
        check_help(command, found.out.decode(), names, options)


def check_shape(label, text):
    """Lines of up to 80 columns, without blanks at their ends."""
    lines = text.split('\n')
    check(f'{label}, lines over 80 columns', [line for line in lines if len(line) > 80], [])
    check(f'{label}, blanks at the end of a line', [line for line in lines if line != line.rstrip()], [])
    check(f'{label}, ends with its last line', (lines[-1], lines[-2] != ''), ('', True))


def check_help(command, text, names, options):
    """A usage line, each option there and in a paragraph of its own, and an example."""
    label = f'yard {command} --help'
    check_shape(label, text)
    usage = text.split('\n\n')[0]
    check(f'{label}, usage', usage.startswith(f'usage: yard {command} '), True)
    check(f'{label}, options in the usage', sorted(set(re.findall(r'(?<![\w-])--?\w+', usage))), sorted(options))
    check(f'{label}, options', sorted(re.findall(r'^  (--?\w+) ', text, re.M)), sorted(options))
    if command != 'records':
        check(f'{label}, operands', [name for name in names if not re.search(rf'[ ]{name}(?![\w])', usage)], [])
    example = re.search(r'^example: (yard .*)$', text, re.M)
    check(f'{label}, example', example is not None and example[1].startswith(f'yard {command} '), True)
    words = shlex.split(re.split('[>|]', example[1])[0])[1:] if example else []
    if any(word.startswith('examples/') for word in words):
        check(f'{label}, the example runs', yard(*words, cwd=ROOT).status, GOOD)


def run_version():
    header = (ROOT / 'include' / 'yard.h').read_text()
    version = '.'.join(re.search(rf'YARD_VERSION_{part} (\d+)', header)[1] for part in ('MAJOR', 'MINOR'))
    for word in ('--version', '-V'):
        check(f'yard {word}', yard(word), (GOOD, f'yard {version}\n'.encode(), b''))


# Texts of maps

def check_mistakes(folder, what, text, mistakes, command=('make',)):
    """The mistakes of a text, (line, message), on standard error by their lines; nothing is printed or written."""
    data = text if isinstance(text, bytes) else text.encode()
    (folder / 'made').unlink(missing_ok=True)
    for name, options in (('standard input', {'data': data}), ('text', {})):
        (folder / 'text').write_bytes(data)
        path = '-' if name == 'standard input' else 'text'
        err = ''.join(f'yard: {name}, line {line}: {message}\n' for line, message in mistakes[:20])
        if len(mistakes) > 20:
            more = len(mistakes) - 20
            err += f'yard: {name}: and {more} more mistake{"s" if more > 1 else ""}\n'
        check(f'{what}, {name}', yard(*command, path, '-o', '-', cwd=folder, **options), (REFUSED, b'', err.encode()))
    check(f'{what}, to a file', yard(*command, 'text', '-o', 'made', cwd=folder)[:2], (REFUSED, b''))
    check(f'{what}, no file', (folder / 'made').exists(), False)


def check_good(folder, what, text):
    data = text if isinstance(text, bytes) else text.encode()
    found = yard('make', '-', '-o', '-', data=data, cwd=folder)
    check(f'{what}: good', (found.status, len(found.out) > 0, found.err), (GOOD, True, b''))


FORMS = {'stations': 'stations NUMBER', 'pages': 'pages NUMBER',
         'station': 'station NUMBER, or station NUMBER page NUMBER',
         'move': 'move STATION to STATION time TENTHS, and behind it limit DECIMETRES if there is one'}


def run_forms(folder):
    """Lines that have not the form that their first word asks for."""
    lines = ['stations', 'stations 1 2', 'stations 1 stations 1', 'pages', 'pages 1 of 2', 'pages = 3', 'station',
             'station 0 page', 'station 0 on 1', 'station 0 pages 1', 'station 0 page 1 2', 'station 0 page1',
             'station 0\rstation 1', 'move', 'move 0', 'move 0 to 1', 'move 0 to 1 time', 'move 0 to 1 tiem 4',
             'move 0 1 4', 'move 0 -> 1 time 4', 'move 0 to 1 time 4 limit', 'move 0 to 1 limit 4 time 5',
             'move 0 to 1 time 4 limit 5 6', 'move 0 to 1 time 4 Limit 5', 'move 0 to 1 time 4 5']
    for line in lines:
        first = line.split()[0]
        check_mistakes(folder, f'a line {line!r}', f'station 0\n{line}\nstation 1\n',
                       [(2, f'this is not of the form {FORMS[first]}')])
    begins = 'a line begins with stations, pages, station or move, not with'
    rows = [('Station 0', 'Station'), ('staton 0', 'staton'), ('0 to 1 time 4', '0'), ('// move 0', '//'), (';', ';'),
            ('x' * 24, 'x' * 24), ('x' * 1000000, 'x' * 24 + '..'), ('\u00e9' * 25, '\u00e9' * 24 + '..'),
            ('"station" 0', '\\"station\\"'), ("station's", "station's"), ('\\station', '\\\\station'),
            ('\x1b[31mstation 0', '\\u{1b}[31mstation'), ('\x07\x08\x7f', '\\u{7}\\u{8}\\u{7f}'), ('\0\0', '\\0\\0'),
            ('\u202estation 0', '\\u{202e}station'), ('\x9bstation', '\\u{9b}station'),
            ('\ufeffstation', '\\u{feff}station')]
    for line, shown in rows:
        check_mistakes(folder, f'a line {line[:30]!r}', f'station 0\n\n{line}\n', [(3, f'{begins} "{shown}"')])
    for line, shown in ((b'\xff\xfe 0', '\ufffd\ufffd'), (b'stat\xefon 0', 'stat\ufffdon')):
        check_mistakes(folder, f'a line {line!r}', b'station 0\n' + line, [(2, f'{begins} "{shown}"')])


def run_words(folder):
    """Words that should be numbers, each in its place and at its bounds."""
    time = 'a time in tenths of a second'
    places = [('stations {}', 'the number of stations', 1, 2048), ('pages {}', 'the number of pages', 1, 240),
              ('station {}', 'a station', 0, 2047), ('station {} page 0', 'a station', 0, 2047),
              ('station 0 page {}', 'a page', 0, 239), ('move {} to 1 time 4', 'a station', 0, 2047),
              ('move 0 to {} time 4', 'a station', 0, 2047), ('move 0 to 1 time {}', time, 0, 65535),
              ('move 0 to 1 time {} limit 1', time, 0, 65535),
              ('move 0 to 1 time 4 limit {}', 'a limit in decimetres', 1, 65535)]
    wrong = ['-1', '+1', '1.5', 'x', '0x1', '1,', '\uff11', '1' * 24, '99999999999999999999']
    for place, what, least, most in places:
        for word in [*wrong, str(most + 1), *(['0'] if least else [])]:
            check_mistakes(folder, f'a line {place.format(word)!r}', f'# 1\n# 2\n{place.format(word)}\n',
                           [(3, f'{what} is a whole number from {least} to {most}, not "{word}"')])
    check_mistakes(folder, 'a long number', f'station {"1" * 1000}', [
        (1, f'a station is a whole number from 0 to 2047, not "{"1" * 24}.."')])
    check_mistakes(folder, 'the first wrong word of a line', 'move x to y time z limit 0', [
        (1, 'a station is a whole number from 0 to 2047, not "x"')])
    check_good(folder, 'leading zeros',
               'station 00000000000000000000 page 000\nstation 1 page 0239\nmove 01 to 00 time 007')
    check_good(folder, 'numbers at their bounds', 'stations 2\npages 240\nstation 0 page 0\nstation 1 page 239\n'
               'move 0 to 1 time 0 limit 1\nmove 1 to 0 time 65535 limit 65535\n')
    check_good(folder, 'as many stations as there can be',
               ''.join(f'station {s}\n' for s in range(2048)) + 'stations 2048')


def run_twice(folder):
    """Lines that say again what another one says."""
    check_mistakes(folder, 'stations twice', 'stations 1\nstation 0\nstations 1\n', [
        (3, 'this number stands in line 1 already')])
    check_mistakes(folder, 'pages twice', '# pages 1\npages 1\nstation 0\n\npages 2\n', [
        (5, 'this number stands in line 2 already')])
    check_mistakes(folder, 'a station twice', 'station 0 page 0\nstation 1 page 0\nstation 0 page 1\n', [
        (3, 'station 0 stands in line 1 already')])
    check_mistakes(folder, 'a move twice', 'station 0\nstation 1\nmove 0 to 1 time 1\nmove 1 to 0 time 1\n'
                   'move 0 to 1 time 2 limit 3\n', [(5, 'the move from 0 to 1 stands in line 3 already')])


def run_whole(folder):
    """Lines that do not fit together."""
    for text in ('', '\n', '\n\n# station 0\n', 'pages 3\n', '\ufeff', ' \t\r\n'):
        check_mistakes(folder, f'no station, {text!r}', text, [(1, 'there is no station in this text')])
    check_mistakes(folder, 'no station, and a number', '\nstations 3', [
        (2, '3 stations by this line, but the text has 0')])
    check_mistakes(folder, 'fewer stations', 'station 0\nstation 1\nstations 3\n', [
        (3, '3 stations by this line, but the text has 2')])
    check_mistakes(folder, 'more stations', 'stations 1\nstation 1\nstation 0\n', [
        (1, '1 station by this line, but the text has 2')])
    gap = 'station {} is here, but there is no station {}: they are numbered from 0 on'
    check_mistakes(folder, 'not from 0', 'station 1\n', [(1, gap.format(1, 0))])
    check_mistakes(folder, 'a gap', 'station 7\nstation 0\nstation 4\nstation 1\n', [(3, gap.format(4, 2))])
    moves = 'move 0 to 1 time 1\nmove 2 to 0 time 1\nmove 3 to 3 time 1'
    check_mistakes(folder, 'no such stations', f'station 0\n{moves}', [
        (2, 'there is no station 1'), (3, 'there is no station 2'), (4, 'there is no station 3')])
    check_mistakes(folder, 'a move to itself', 'move 1 to 1 time 0 limit 5\nstation 0\nstation 1\n', [
        (1, 'the move leads from station 1 to itself')])
    check_mistakes(folder, 'several, by their lines', 'move 1 to 0 time 1\nstations 3\nmove 0 to 0 time 1\nstation 0\n'
                   'move 0 to 9 time 5', [
                       (1, 'there is no station 1'), (2, '3 stations by this line, but the text has 1'),
                       (3, 'the move leads from station 0 to itself'), (5, 'there is no station 9')])


def run_pages(folder):
    """Stations and moves that do not fit on their pages."""
    check_mistakes(folder, 'a page for some', 'station 1\nstation 0 page 0\n', [
        (1, 'station 1 has no page, but station 0 has: give a page to all, or to none')])
    check_mistakes(folder, 'a page for some', 'station 1 page 0\nstation 2 page 0\nstation 0\n', [
        (3, 'station 0 has no page, but station 1 has: give a page to all, or to none')])
    check_mistakes(folder, 'pages that there are not', 'pages 2\nstation 0 page 1\nstation 1 page 2\n', [
        (3, 'station 1 is on page 2, and the pages are 0 to 1')])
    many = ''.join(f'station {s} page 3\n' for s in reversed(range(86)))
    check_good(folder, 'a page full of stations', many.replace('station 85 page 3\n', ''))
    full = 'page 3 is too full: up to station 85 its stations and moves take 258 bytes, and it has room for 255'
    check_mistakes(folder, 'a page too full of stations', many, [(1, full)])
    others = ''.join(f'station {s} page 1\n' for s in range(1, 52))
    check_good(folder, 'a page full of moves', f'{fifty_moves(1)}{others}station 0 page 0\n')
    full = 'page 0 is too full: up to station 0 its stations and moves take 257 bytes, and it has room for 255'
    check_mistakes(folder, 'a page too full of moves', f'{fifty_moves(2)}{others}station 0 page 0\n', [(102, full)])


def fifty_moves(limited):
    """Moves of station 0, so many of them with a limit: with one of them it takes 255 bytes."""
    return ''.join(f'move 0 to {s} time 1{" limit 1" if s <= limited else ""}\n' for s in range(1, 51))


def run_no_pages(folder):
    """Texts without pages."""
    others = ''.join(f'station {s}\n' for s in range(1, 52))
    check_good(folder, 'a station that fits on a page of its own', f'station 0\n{others}{fifty_moves(1)}')
    full = 'station 0 and its moves take 257 bytes, and a page has room for 255'
    check_mistakes(folder, 'a station that fits on no page', f'{others}{fifty_moves(2)}station 0\n', [(102, full)])
    check_mistakes(folder, 'one page is not enough', 'pages 1\n' + ''.join(f'station {s}\n' for s in range(87)), [
        (87, '1 page has no room for station 85')])
    check_mistakes(folder, 'two pages are not enough', ''.join(f'station {s}\n' for s in range(171)) + 'pages 2', [
        (171, '2 pages have no room for station 170')])
    wide = ''.join(f'station {s}\n' for s in range(241))
    wide += ''.join(f'move {s} to {(s + k) % 241} time 1\n' for s in range(241) for k in range(1, 27))
    check_mistakes(folder, '240 pages are not enough', wide, [(241, '240 pages have no room for station 240')])


def run_many(folder):
    """More mistakes than are told; and lines by every kind of line end."""
    begins = 'a line begins with stations, pages, station or move, not with'
    for count in (19, 20, 21, 22, 5000):
        text = 'station 0\n' + ''.join(f'x{k}\n' for k in range(count))
        check_mistakes(folder, f'{count} mistakes', text, [(k + 2, f'{begins} "x{k}"') for k in range(count)])
    wrong = [(2, f'{begins} "x"'), (4, 'a station is a whole number from 0 to 2047, not "z"')]
    for what, end in (('Unix', '\n'), ('Windows', '\r\n')):
        for front in ('', '\ufeff'):
            text = front + end.join(['station 0', 'x', '', 'station z # no', '# y'])
            check_mistakes(folder, f'lines of {what}, {front!r}', text, wrong)
            check_mistakes(folder, f'lines of {what}, {front!r}, ended', text + end, wrong)
    check_mistakes(folder, 'line by line before the whole', 'station 5\nx\nmove 1 to 2 time 3\n', [
        (2, f'{begins} "x"')])
    check_mistakes(folder, 'the whole before the pages', 'station 0 page 0\nstation 1\nmove 0 to 0 time 1', [
        (3, 'the move leads from station 0 to itself')])
    check_good(folder, 'no UTF-8 in a comment', b'station 0 # \xff\xfe\n')
    check_good(folder, 'a comment behind a word', 'station 0#1\n')
    check('a map is no text', yard('make', 'm7.map', '-o', '-', cwd=folder)[:2], (REFUSED, b''))


# Lists of coils

def run_coils(folder):
    """Mistakes in a list of coils."""
    def wrong(what, text, *mistakes):
        check_mistakes(folder, f'coils, {what}', text, list(mistakes), ('records', 'make'))

    fields = 'a record is coil,length,station; here'
    wrong('one field', '7\n', (1, f'{fields} is 1 field'))
    wrong('semicolons', '7;8120;0\n', (1, f'{fields} is 1 field'))
    wrong('two fields', '7,8120,0\n7,8120\n', (2, f'{fields} are 2 fields'))
    wrong('four fields', '# 1\n7,8120,0,\n', (2, f'{fields} are 4 fields'))
    names = [('coil', 4294967295, '{},1,1'), ('length', 65535, '1,{},1'), ('station', 65535, '1,1,{}')]
    for name, most, line in names:
        for word in ('', '-1', '+1', '1.5', 'x', '1 2', str(most + 1), '99999999999999999999', '"1"'):
            shown = word.replace('"', '\\"')
            wrong(f'{name} {word!r}', f'coil,length,station\n{line.format(word)}\n', (
                2, f'{name} is a whole number from 0 to {most}, not "{shown}"'))
        wrong(f'{name} of a terminal', line.format('\x1b[31m'), (
            1, f'{name} is a whole number from 0 to {most}, not "\\u{{1b}}[31m"'))
        wrong(f'{name} of no UTF-8', line.format('?').encode().replace(b'?', b'\xff'), (
            1, f'{name} is a whole number from 0 to {most}, not "\ufffd"'))
    heading = 'coil is a whole number from 0 to 4294967295, not "coil"'
    wrong('a heading behind a record', '7,8120,0\ncoil,length,station\n', (2, heading))
    wrong('a heading twice', 'coil,length,station\ncoil,length,station\n7,8120,0\n', (2, heading))
    wrong('another heading', 'Coil,Length,Station\n', (1, 'coil is a whole number from 0 to 4294967295, not "Coil"'))
    wrong('several', '\r\nx,1,1\r\n1,x,1\r\n1,1\r\n', (2, 'coil is a whole number from 0 to 4294967295, not "x"'),
          (3, 'length is a whole number from 0 to 65535, not "x"'), (4, f'{fields} are 2 fields'))
    coil = 'coil is a whole number from 0 to 4294967295, not "x"'
    wrong('very many', 'x,y,z\n' * 30, *[(k, coil) for k in range(1, 31)])


def run_short_records(folder):
    """Bytes that are left over behind the last record."""
    for size in range(1, 8):
        data = record(7, 8120, 0) + bytes(size)
        (folder / 'short').write_bytes(data)
        unit = 'byte' if size == 1 else 'bytes'
        for name, words, options in (('short', 'short', {}), ('standard input', '-', {'data': data})):
            check(f'{size} bytes left over, {name}', yard('records', 'show', words, cwd=folder, **options),
                  (REFUSED, b'coil,length,station\n7,8120,0\n',
                   f'yard: {name}: the last record is short: it has {size} {unit}, not 8\n'.encode()))


def run():
    with tempfile.TemporaryDirectory() as name:
        folder = Path(name)
        for file, data in (('m7.map', M7), ('m7.txt', normal(M7).encode()), ('coils.csv', b'7,8120,0\n'),
                           ('coils', record(7, 8120, 0))):
            (folder / file).write_bytes(data)
        for part in (run_first_word, run_operands, run_options, run_numbers, run_same_words, run_terminal, run_help,
                     run_forms, run_words, run_twice, run_whole, run_pages, run_no_pages, run_many, run_coils,
                     run_short_records):
            part(folder)
        run_version()
