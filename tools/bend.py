#!/usr/bin/env python3
"""Bends a script, or a copy of replicas' folders or of a backup store, by chance and repeatably."""
import argparse
import json
import os
import random
import shutil
import sys

HELP = '''
A file is a script: its bent bytes are printed. Of a folder a copy is made at INTO, in which one to three files are bent; by their
names it is known what they hold. The same number bends the same input in the same way.

Bytes are bent where one is turned, taken away or doubled, where a stretch is doubled or moved, or where the end is cut off. JSON is
bent where a member or an item is dropped, doubled, moved or made of another kind. A file is bent where its bytes or its JSON are,
where it is dropped, or where it takes another one's name.
'''
# What a member may become: a value of each kind, and such as are near a limit.
OTHERS = [None, True, False, 0, 1, -1, 2.5, 1e300, 1 << 21, (1 << 30) + 1, 1 << 64, '', 'x', 'r0', '0', '-1', '2097152', '..', 'sys-0', 'sys-01',
          'n' * 64, 'n' * 65, '\0', '\u00e9', [], {}, [0], [[]], {'': 0}, {'frames': 0}, {'control': ['status']},
          'volume-head-000.img', 'volume-snap-s.img', '0' * 64]
IS_JSON = ('.meta', '.cfg')


class Members(list):
    """The members of an object, as pairs of a name and a value: a name may come twice."""


def spell(value):
    """The text of a value."""
    if isinstance(value, Members):
        return '{%s}' % ','.join('%s:%s' % (json.dumps(name), spell(each)) for name, each in value)
    if isinstance(value, list):
        return '[%s]' % ','.join(map(spell, value))
    return json.dumps(value, separators=(',', ':'))


def parts_of(value):
    """All lists and objects of a value that have members or items, the value itself too."""
    inner = [each for _, each in value] if isinstance(value, Members) else value if isinstance(value, list) else []
    return ([value] if inner else []) + [part for each in inner for part in parts_of(each)]


def bend_json(chance, content):
    """JSON of which a member or an item is bent; bytes that are none are bent as bytes."""
    try:
        value = json.loads(content, object_pairs_hook=Members)
    except (ValueError, RecursionError):
        return bend_bytes(chance, content)
    parts = parts_of(value)
    if not parts:
        return bend_bytes(chance, content)
    bend_part(chance, chance.choice(parts))
    return spell(value).encode()


def bend_part(chance, part):
    """Bends a member of an object or an item of a list, in its place."""
    place, kind = chance.randrange(len(part)), chance.randrange(8)
    if kind == 0:
        del part[place]
    elif kind == 1:
        part.insert(chance.randrange(len(part) + 1), part[place])
    elif kind == 2:
        part.append(part.pop(place))
    elif isinstance(part, Members):
        name, value = part[place]
        # Doubled with another value, spelled otherwise, or of another kind.
        if kind == 3:
            part.insert(chance.randrange(len(part) + 1), (name, chance.choice(OTHERS)))
        elif kind == 4:
            part[place] = chance.choice([name.lower(), name + 'x', '', chance.choice(part)[0]]), value
        else:
            part[place] = name, bent_value(chance, value)
    else:
        part[place] = bent_value(chance, part[place])


def bent_value(chance, value):
    """A value near another one, or of another kind."""
    if isinstance(value, bool) or chance.random() < 0.5:
        return chance.choice(OTHERS)
    if isinstance(value, int):
        return chance.choice([value + 1, value - 1, -value, value * 2, value + 26, float(value), str(value)])
    if isinstance(value, str):
        return bend_bytes(chance, value.encode()).decode(errors='replace')
    return chance.choice([[value], Members([('', value)])])


def bend_bytes(chance, content):
    """Bytes of which one is turned, taken away or doubled, or a stretch is doubled or moved, or the end is cut off."""
    if not content:
        return chance.choice([b'\0', b'x', b'{}', b'\n'])
    kind, place = chance.randrange(7), chance.randrange(len(content))
    end = min(len(content), place + chance.choice([1, 4, 26, 100]))
    before, stretch, behind = content[:place], content[place:end], content[end:]
    if kind == 0:
        return before + bytes([content[place] ^ 1 << chance.randrange(8)]) + content[place + 1:]
    if kind == 1:
        return before + bytes([chance.choice(b'\0\n "{}[],:09-x\x7f\x80\xff')]) + content[place + 1:]
    if kind == 2:
        return before + content[place + 1:]
    if kind == 3:
        return before + content[place:place + 1] + content[place:]
    if kind == 4:
        return before + stretch + stretch + behind
    if kind == 5:
        return before + behind + stretch
    return before


def bend_script(chance, content):
    """A script whose line is bent as JSON or as bytes, or what stands behind it, or where both are cut."""
    line, feed, rest = content.partition(b'\n')
    kind = chance.random()
    if kind < 0.5:
        line = bend_json(chance, line)
    elif kind < 0.6:
        line = bend_bytes(chance, line)
    elif kind < 0.7:
        return bend_bytes(chance, content)
    else:
        rest = bend_bytes(chance, rest)
    return line + feed + rest


def bend_file(chance, path, others):
    """Bends a file of a folder, which may take the place of one of the others, or theirs its own."""
    kind = chance.random()
    if kind < 0.1:
        os.remove(path)
    elif kind < 0.2:
        shutil.copyfile(chance.choice(others), path)
    else:
        with open(path, 'rb') as file:
            content = file.read()
        bend = bend_json if path.endswith(IS_JSON) and kind < 0.8 else bend_bytes
        with open(path, 'wb') as file:
            file.write(bend(chance, content))


def bend_folder(chance, top):
    """Bends one to three files below a folder. Their paths."""
    found = sorted(os.path.join(folder, name) for folder, _, names in os.walk(top) for name in names)
    bent = chance.sample(found, min(len(found), chance.choice([1, 1, 2, 3])))
    for path in bent:
        bend_file(chance, path, [other for other in found if other not in bent] or [os.devnull])
    return bent


def main():
    formatter = argparse.RawDescriptionHelpFormatter
    parser = argparse.ArgumentParser(prog='bend.py', description=__doc__, formatter_class=formatter, epilog=HELP)
    parser.add_argument('number', type=int, help='the number from which chance comes')
    parser.add_argument('path', help='a script, or a folder')
    parser.add_argument('into', nargs='?', help='where the copy of a folder is made')
    words = parser.parse_args()
    chance = random.Random(words.number)
    if os.path.isdir(words.path):
        if not words.into:
            parser.error('a folder wants INTO')
        shutil.copytree(words.path, words.into)
        for path in bend_folder(chance, words.into):
            print(os.path.relpath(path, words.into))
    else:
        with open(words.path, 'rb') as file:
            sys.stdout.buffer.write(bend_script(chance, file.read()))


if __name__ == '__main__':
    main()
