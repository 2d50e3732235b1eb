#!/usr/bin/env python3
"""Tries wrong bodies that the gate does not try: in a copy of the crates, one by one, by `rt must-fail`."""
import argparse
import contextlib
import os
import re
import shutil
import subprocess
import sys
import tempfile

TOP = os.path.dirname(os.path.dirname(os.path.abspath(__file__)))
LISTS = os.path.join('tools', 'wrong_bodies')
# The file by which a copy is known.
MARK = 'copy_of_wrong_bodies'
HELP = '''
The edits that the gate tries stand in crates/NAME/must-fail. These are others, which the contracts of a crate refuse too; they
are to be tried once for each crate that a change touches. They stand in tools/wrong_bodies/NAME.txt, a paragraph for each:

  acknowledges_for_the_other_replica         the wrong program in plain words, as the name of an edit
  file: src/client.rt                        a file of the crate
  old:         let answer = f(replica);      what stands in it exactly once
  new:         let answer = f(replica ^ 1);  what is to stand there

A text is one line, from the blank behind the colon to the line's end. There may be more pairs of `old` and `new`, each behind
the one before, and more files. An empty line ends a paragraph; any other line is an error.

A line is printed for each wrong body: `CRATE/NAME: refused`, as it must be; `proved`, where the contract lets it through; `bad`,
where it does not fit, compile or read; `not tried`, where nothing is known. The last line tells how many there were of each,
and the status is 0 where all were refused.

The crates below are proved first, which may take long, unless the kit finds them proved by an `rt check` of the same files on
this machine. A folder that is named for the copy keeps what was proved in it for the next time.
'''
# What `rt must-fail` calls an outcome, and what it is called here.
OUTCOMES = [('refused, as it must be', 'refused'), ('NOT REFUSED', 'proved'), ('BAD EDIT', 'bad'), ('NOT TRIED', 'not tried')]
SAID = re.compile(r'(?:rt: )?must-fail (\w+)/([\w.-]+)\.edit: (%s)(.*)' % '|'.join(re.escape(said) for said, _ in OUTCOMES))


class BadList(Exception):
    """A list that is none, or a word that names nothing."""


class Body:
    """A wrong body: its crate, its name, and what it puts for what, in which files."""

    def __init__(self, crate, name):
        self.crate, self.name, self.changes = crate, name, []

    def __str__(self):
        return '%s/%s' % (self.crate, self.name)

    def edit(self):
        """The text of its edit, as `rt` reads it."""
        lines, before = [], None
        for file, old, new in self.changes:
            lines += ([] if file == before else ['file: ' + file]) + ['old: ' + old, 'new: ' + new]
            before = file
        return '\n'.join(lines) + '\n'

    def misfit(self, top):
        """Why it cannot be put into its crate, or nothing."""
        texts = {}
        for file, old, new in self.changes:
            path = os.path.join(top, 'crates', self.crate, file)
            if not file.startswith(('src/', 'specs/', 'proofs/')) or not os.path.isfile(path):
                return 'there is no %s' % file
            if file not in texts:
                with open(path, encoding='utf-8') as code:
                    texts[file] = code.read()
            count = texts[file].count(old)
            if count != 1:
                return '`%s` stands in %s %d times' % (old.strip(), file, count)
            if old == new:
                return '`%s` is not changed' % old.strip()
            texts[file] = texts[file].replace(old, new)
        return '' if texts else 'it changes nothing'


def read_changes(body, lines):
    """Gives a body the changes that numbered lines say."""
    file = old = None
    for number, line in lines:
        if line.startswith('file: ') and old is None:
            file = line[len('file: '):]
        elif line.startswith('old: ') and file is not None and old is None:
            old = line[len('old: '):]
        elif (line + ' ').startswith('new: ') and old is not None:
            body.changes.append((file, old, line[len('new: '):]))
            old = None
        else:
            raise BadList('line %d: a `file: `, `old: ` or `new: ` was to stand here' % number)
    if old is not None or not body.changes:
        raise BadList('%s has no `new: ` behind its last line' % body)
    return body


def read_list(crate, text):
    """The wrong bodies of a crate, of the text of its list."""
    bodies, name, lines = [], None, []
    for number, line in enumerate([*text.split('\n'), ''], 1):
        if name is None:
            if line and not re.fullmatch(r'\w+', line):
                raise BadList('line %d: a name was to stand here' % number)
            name, lines = line or None, []
        elif line:
            lines.append((number, line))
        else:
            bodies.append(read_changes(Body(crate, name), lines))
            name = None
    return bodies


def read_text(path):
    with open(path, encoding='utf-8') as file:
        return file.read()


def listed(top):
    """All wrong bodies of the lists, in the order of crates and names."""
    bodies = []
    for file in sorted(os.listdir(os.path.join(top, LISTS))):
        crate, ending = os.path.splitext(file)
        try:
            if ending != '.txt':
                raise BadList('the name of a list is that of a crate, and ends in .txt')
            bodies += read_list(crate, read_text(os.path.join(top, LISTS, file)))
        except BadList as bad:
            raise BadList('%s: %s' % (os.path.join(LISTS, file), bad))
    return bodies


def kept(top):
    """The wrong bodies that the gate tries: the edits of the crates."""
    bodies = []
    for crate in sorted(os.listdir(os.path.join(top, 'crates'))):
        folder = os.path.join(top, 'crates', crate, 'must-fail')
        for file in sorted(os.listdir(folder)) if os.path.isdir(folder) else []:
            lines = read_text(os.path.join(folder, file)).split('\n')
            lines = [line for line in enumerate(lines, 1) if line[1].strip()]
            bodies.append(read_changes(Body(crate, os.path.splitext(file)[0]), lines))
    return bodies


def chosen(bodies, words):
    """Those that words name: a crate, or CRATE/NAME. All, where there is no word."""
    for word in words:
        if not any(word in (body.crate, str(body)) for body in bodies):
            raise BadList('no list has %s' % word)
    return [body for body in bodies if not words or body.crate in words or str(body) in words]


def clear_copy(room, crates):
    """Takes all but what was built of these crates out of an earlier copy. Another folder has to be empty."""
    if os.listdir(room) and not os.path.isfile(os.path.join(room, MARK)):
        raise BadList('%s is neither empty nor an earlier copy' % room)
    with open(os.path.join(room, MARK), 'w'):
        pass
    os.makedirs(os.path.join(room, 'crates'), exist_ok=True)
    for crate in os.listdir(os.path.join(room, 'crates')):
        folder = os.path.join(room, 'crates', crate)
        for name in os.listdir(folder):
            path = os.path.join(folder, name)
            if os.path.isfile(path):
                os.remove(path)
            elif name != 'out' or crate not in crates:
                shutil.rmtree(path)
        if not os.listdir(folder):
            os.rmdir(folder)


def copy_crates(top, room):
    """Copies what a proof needs: no edits, and nothing that was built."""
    clear_copy(room, os.listdir(os.path.join(top, 'crates')))
    for file in ('crates.txt', 'HANDLES'):
        shutil.copy(os.path.join(top, file), room)
    for crate in os.listdir(os.path.join(top, 'crates')):
        source = os.path.join(top, 'crates', crate)
        left_out = lambda folder, names: [name for name in names if folder == source and name in ('out', 'must-fail')]
        if os.path.isdir(source):
            shutil.copytree(source, os.path.join(room, 'crates', crate), ignore=left_out, dirs_exist_ok=True)


def outcomes(said):
    """What `rt must-fail` told of each edit: the outcome, and what stands behind it, on its line and on those that go on."""
    told, name = {}, None
    for line in said.split('\n'):
        match = SAID.match(line)
        if match:
            name = '%s/%s' % match.group(1, 2)
            told[name] = dict(OUTCOMES)[match.group(3)], match.group(4).lstrip(': ')
        elif line.startswith('rt: ') or not line:
            name = None
        elif name:
            told[name] = told[name][0], told[name][1] + '\n    ' + line
    return told


def try_crate(room, crate, bodies):
    """Tries wrong bodies of one crate in the copy: what came of each, and all that was said."""
    folder = os.path.join(room, 'crates', crate, 'must-fail')
    os.makedirs(folder)
    for body in bodies:
        with open(os.path.join(folder, body.name + '.edit'), 'w', encoding='utf-8') as file:
            file.write(body.edit())
    ran = subprocess.run(['rt', 'must-fail', crate], cwd=room, stdin=subprocess.DEVNULL, stdout=subprocess.PIPE,
                         stderr=subprocess.STDOUT, encoding='utf-8', errors='replace')
    return outcomes(ran.stdout), ran.stdout


@contextlib.contextmanager
def room_at(folder):
    """A folder for the copy: that one, which stays, or a temporary one."""
    if folder:
        os.makedirs(folder, exist_ok=True)
        yield folder
    else:
        with tempfile.TemporaryDirectory(prefix='wrong-bodies-') as room:
            yield room


def try_all(top, bodies, folder=None):
    """Tries them in a copy, prints what came of each, and gives how often each outcome came."""
    counts = dict.fromkeys([outcome for _, outcome in OUTCOMES], 0)

    def tell(body, outcome, why):
        counts[outcome] += 1
        is_plain = outcome == 'refused' and not why.startswith('(only')
        print('%s: %s%s' % (body, outcome, '' if is_plain or not why else ': ' + why), flush=True)

    with room_at(folder) as room:
        copy_crates(top, room)
        for crate in dict.fromkeys(body.crate for body in bodies):
            its = [body for body in bodies if body.crate == crate]
            fitting = [body for body in its if not body.misfit(top)]
            print('%s: trying %d' % (crate, len(fitting)), file=sys.stderr, flush=True)
            told, said = try_crate(room, crate, fitting) if fitting else ({}, '')
            for body in its:
                why = body.misfit(top)
                tell(body, *(('bad', why) if why else told.get(str(body), ('not tried', 'rt said nothing of it'))))
            if any(str(body) not in told for body in fitting):
                sys.stderr.write(''.join(said.splitlines(True)[-20:]))
    return counts


def read_words():
    """The words of the command line."""
    parser = argparse.ArgumentParser(prog='wrong_bodies.py', description=__doc__, epilog=HELP,
                                     formatter_class=argparse.RawDescriptionHelpFormatter)
    parser.add_argument('names', nargs='*', metavar='CRATE[/NAME]', help='what is tried; all where nothing is named')
    parser.add_argument('--list', action='store_true', help='prints the names of the wrong bodies, and tries none')
    parser.add_argument('--copy', metavar='FOLDER', help='where the copy is made: a new or empty folder, or that of an earlier copy')
    return parser.parse_args()


def main():
    words = read_words()
    try:
        bodies = chosen(listed(TOP), words.names)
        if words.list:
            print(''.join('%s\n' % body for body in bodies), end='')
            print('%d wrong bodies of %d crates' % (len(bodies), len({body.crate for body in bodies})))
            return
        counts = try_all(TOP, bodies, words.copy)
    except BadList as bad:
        sys.exit('wrong_bodies.py: %s' % bad)
    except OSError as error:
        sys.exit('wrong_bodies.py: %s: %s' % (error.filename, error.strerror))
    print('wrong bodies: ' + ', '.join('%d %s' % (count, outcome) for outcome, count in counts.items()))
    sys.exit(counts['refused'] != len(bodies))


if __name__ == '__main__':
    main()
