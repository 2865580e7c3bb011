"""The whole check, held against reader.py; how full pages are is found here."""
import random

from harness import GOOD, REFUSED, check

from reader import u16, whole_check
from records import records_of

from answers.given import as_json, as_text, counted, maps_to_check
from answers.refusals import check_refusal, refusal_text


def fullest(data):
    """The page with most bytes in use, the lowest of several, from the directory and the records."""
    directory, pages = data[4:4 + u16(data, 0)], u16(data, 2)
    used = [1] * pages
    for p in directory:
        used[p] += 3
    for begin, _, _, limit in records_of(data):
        used[directory[begin]] += 7 if limit else 5
    return {'page': used.index(max(used)), 'bytes': max(used)}


def check_checked(one, found):
    """What `check` says of one map, in JSON."""
    refusal = whole_check(one.image)[1:]
    if refusal:
        check(f'{one.label}, map', (found['map'], found['good']), (str(one.path), False))
        check_refusal(one.label, one.image, refusal, found['refusal'])
        return refusal[0]
    check(f'{one.label}, check', found, {
        'map': str(one.path), 'good': True, 'stations': u16(one.image, 0), 'pages': u16(one.image, 2),
        'moves': len(records_of(one.image)), 'fullest': fullest(one.image)})
    return None


def checked_text(found):
    """The text for one map, by the JSON."""
    if not found['good']:
        return f"{found['map']}: {refusal_text(found['refusal'])}"
    numbers = ', '.join(counted(found[name + 's'], name) for name in ('station', 'page', 'move'))
    return (f"{found['map']}: good: {numbers}; page {found['fullest']['page']} is the fullest, "
            f"with {found['fullest']['bytes']} of 256 bytes\n")


def run_checks(folder):
    """Maps of every kind, 20 in a run."""
    stored = [folder.put(*one) for one in maps_to_check(random.Random(41))]
    numbers = set()
    for begin in range(0, len(stored), 20):
        some = stored[begin:begin + 20]
        label, paths = f'check of {some[0].label} and so on', [one.path for one in some]
        status, found = as_json(label, 'check', *paths)
        check(f'{label}, maps', len(found), len(some))
        refusals = {check_checked(one, of_one) for one, of_one in zip(some, found)}
        check(f'{label}, status', status, GOOD if refusals == {None} else REFUSED)
        check(f'{label}, text', as_text(label, 'check', *paths),
              (status, ''.join(checked_text(of_one) for of_one in found)))
        numbers |= refusals
    check('good maps, and every refusal', numbers, {None, 1, 2, 3, 4, 5, 8, 9, 10, 11, 12, 14, 18})
