"""Tests of the wrong bodies, those that the gate tries and those that wrong_bodies.py tries, with a command that stands for `rt`."""
import os
import subprocess
import sys
import tempfile
import unittest

import wrong_bodies

MOST_KEPT = 84
MOST_CRATES = 42
CODE = 'fn f(x: u8) -> u8 {\n    x + 1\n}\n'
LIST = '''adds_nothing
file: src/lib.rt
old: x + 1
new: x

goes_another_way
file: src/lib.rt
old: -> u8 {
new: -> u16 {
old:     x + 1
new:
file: specs/F.antt
old: f x
new: f (x -> x)
'''
# Says of each edit that it gets what stands in its file behind the word `new: `.
RT = '''#!%s
import glob, os, sys
assert sys.argv[1] == 'must-fail' and os.path.isfile('HANDLES') and os.path.isfile('crates.txt'), sys.argv
assert not os.path.exists('crates/one/out') or os.path.getsize('crates/one/out/built') == len('again')
for path in sorted(glob.glob('crates/%%s/must-fail/*' %% sys.argv[2])):
    with open(path) as file:
        said = file.read().split('new: ')[1].split('\\n')[0]
    if said != 'nothing':
        print('rt: must-fail %%s/%%s: %%s' %% (sys.argv[2], os.path.basename(path), said.replace(' and ', '\\n')))
print('rt: all was said')
'''


def run(top, *words):
    """The code, the output and the notes of the tool in a repository of another place."""
    code = 'import sys, wrong_bodies; wrong_bodies.TOP = sys.argv.pop(1); wrong_bodies.main()'
    path = os.path.join(top, 'bin') + os.pathsep + os.environ['PATH']
    tools = os.path.dirname(os.path.abspath(wrong_bodies.__file__))
    ended = subprocess.run([sys.executable, '-B', '-c', code, top, *words], env=dict(os.environ, PATH=path, PYTHONPATH=tools),
                           stdin=subprocess.DEVNULL, capture_output=True, text=True)
    return ended.returncode, ended.stdout, ended.stderr


def put(top, path, text):
    """Writes a file below the top."""
    path = os.path.join(top, path)
    os.makedirs(os.path.dirname(path), exist_ok=True)
    with open(path, 'w') as file:
        file.write(text)
    return path


class Kept(unittest.TestCase):
    def test_each_body_fits_its_crate(self):
        bodies = wrong_bodies.kept(wrong_bodies.TOP) + wrong_bodies.listed(wrong_bodies.TOP)
        self.assertEqual(['%s: %s' % (body, why) for body in bodies for why in [body.misfit(wrong_bodies.TOP)] if why], [])

    def test_no_name_comes_twice(self):
        names = [str(body) for body in wrong_bodies.kept(wrong_bodies.TOP) + wrong_bodies.listed(wrong_bodies.TOP)]
        self.assertEqual([name for name in names if names.count(name) > 1], [])

    def test_the_gate_tries_few(self):
        bodies = wrong_bodies.kept(wrong_bodies.TOP)
        self.assertLessEqual(len(bodies), MOST_KEPT)
        self.assertLessEqual(len({body.crate for body in bodies}), MOST_CRATES)


class Lists(unittest.TestCase):
    def test_a_list_is_read_as_it_stands(self):
        one, two = wrong_bodies.read_list('one', LIST)
        self.assertEqual((str(one), one.changes), ('one/adds_nothing', [('src/lib.rt', 'x + 1', 'x')]))
        self.assertEqual((str(two), two.changes), ('one/goes_another_way', [
            ('src/lib.rt', '-> u8 {', '-> u16 {'), ('src/lib.rt', '    x + 1', ''), ('specs/F.antt', 'f x', 'f (x -> x)')]))

    def test_an_edit_is_what_stands_in_the_list(self):
        for body, part in zip(wrong_bodies.read_list('one', LIST), LIST.split('\n\n')):
            lines = [line.rstrip() for line in part.rstrip('\n').split('\n')]
            self.assertEqual([line.rstrip() for line in body.edit().rstrip('\n').split('\n')], lines[1:])

    def test_what_is_no_list_is_named_by_its_line(self):
        rows = [
            ('a b\n', 'line 1: a name was to stand here'),
            ('a\nfile: f\nold: x\nold: y\n', 'line 4: a `file: `, `old: ` or `new: ` was to stand here'),
            ('a\nold: x\n', 'line 2: a `file: `, `old: ` or `new: ` was to stand here'),
            ('a\nfile: f\nnew: x\n', 'line 3: a `file: `, `old: ` or `new: ` was to stand here'),
            ('\na\nfile: f\nold: x\nnew: y\n\nb\n# c\n', 'line 8: a `file: `, `old: ` or `new: ` was to stand here'),
            ('a\nfile: f\nold: x\n', 'one/a has no `new: ` behind its last line'),
            ('a\n\nfile: f\n', 'one/a has no `new: ` behind its last line'),
        ]
        for text, wrong in rows:
            with self.assertRaises(wrong_bodies.BadList) as bad:
                wrong_bodies.read_list('one', text)
            self.assertEqual(str(bad.exception), wrong, text)

    def test_what_does_not_fit_is_told(self):
        rows = [
            ('file: src/no.rt\nold: x\nnew: y', 'there is no src/no.rt'),
            ('file: must-fail/a.edit\nold: x\nnew: y', 'there is no must-fail/a.edit'),
            ('file: src/lib.rt\nold:  u8 {\nnew: y', ''),
            ('file: src/lib.rt\nold: u8\nnew: y', '`u8` stands in src/lib.rt 2 times'),
            ('file: src/lib.rt\nold: u9\nnew: y', '`u9` stands in src/lib.rt 0 times'),
            ('file: src/lib.rt\nold: x + 1\nnew: x + 1', '`x + 1` is not changed'),
            ('file: src/lib.rt\nold: x + 1\nnew: y\nold: x + 1\nnew: z', '`x + 1` stands in src/lib.rt 0 times'),
        ]
        with tempfile.TemporaryDirectory() as top:
            put(top, 'crates/one/src/lib.rt', CODE)
            put(top, 'crates/one/must-fail/a.edit', 'x')
            for text, why in rows:
                body, = wrong_bodies.read_list('one', 'a\n%s\n' % text)
                self.assertEqual(body.misfit(top), why, text)


class Tried(unittest.TestCase):
    def repository(self, top, *bodies):
        """A repository with one crate, whose list has bodies for which `rt` says these words."""
        os.chmod(put(top, 'bin/rt', RT % sys.executable), 0o755)
        put(top, 'crates/one/src/lib.rt', CODE)
        put(top, 'crates/one/out/built', '')
        put(top, 'crates/one/must-fail/kept.edit', 'file: src/lib.rt\nold: x + 1\nnew: NOT REFUSED\n')
        put(top, 'crates.txt', 'one:\n')
        put(top, 'HANDLES', 'Handles allowed: none.\n')
        put(top, 'tools/wrong_bodies/one.txt', '\n'.join('%s\nfile: src/lib.rt\nold: x + 1\nnew: %s\n' % body for body in bodies))

    def test_bodies_that_are_refused(self):
        with tempfile.TemporaryDirectory() as top:
            self.repository(top, ('a', 'refused, as it must be: src/lib.rt:2:5: error'), ('b', 'refused, as it must be'))
            self.assertEqual(run(top), (0, 'one/a: refused\none/b: refused\n'
                                        'wrong bodies: 2 refused, 0 proved, 0 bad, 0 not tried\n', 'one: trying 2\n'))
            self.assertEqual(run(top, 'one/b')[1].split('\n')[:-2], ['one/b: refused'])

    def test_bodies_that_are_not(self):
        with tempfile.TemporaryDirectory() as top:
            self.repository(top, ('a', 'NOT REFUSED: it is proved'), ('b', 'BAD EDIT: it said: and error'), ('c', 'nothing'),
                            ('d', 'refused, as it must be (only because of a name)'), ('e', 'NOT TRIED: it was killed'))
            put(top, 'tools/wrong_bodies/two.txt', 'f\nfile: src/lib.rt\nold: x\nnew: y\n')
            self.assertEqual(run(top)[:2], (1, '''one/a: proved: it is proved
one/b: bad: it said:
    error
one/c: not tried: rt said nothing of it
one/d: refused: (only because of a name)
one/e: not tried: it was killed
two/f: bad: there is no src/lib.rt
wrong bodies: 1 refused, 1 proved, 2 bad, 2 not tried
'''))

    def test_a_copy_keeps_what_was_built_and_nothing_else(self):
        with tempfile.TemporaryDirectory() as top, tempfile.TemporaryDirectory() as room:
            self.repository(top, ('a', 'refused, as it must be'))
            copy = os.path.join(room, 'copy')
            self.assertEqual(run(top, '--copy', copy)[0], 0)
            put(copy, 'crates/two/src/gone.rt', CODE)
            put(copy, 'crates/one/src/gone.rt', CODE)
            put(copy, 'crates/two/out/built', '')
            put(copy, 'crates/one/out/built', 'again')
            self.assertEqual(run(top, '--copy', copy)[:2], (0, 'one/a: refused\nwrong bodies: 1 refused, 0 proved, 0 bad, 0 not tried\n'))
            left = [os.path.relpath(os.path.join(at, file), copy) for at, _, files in os.walk(copy) for file in files]
            self.assertEqual(sorted(left), ['HANDLES', 'copy_of_wrong_bodies', 'crates.txt', 'crates/one/must-fail/a.edit',
                                            'crates/one/out/built', 'crates/one/src/lib.rt'])

    def test_no_other_folder_is_taken_for_a_copy(self):
        with tempfile.TemporaryDirectory() as top:
            self.repository(top, ('a', 'refused, as it must be'))
            self.assertEqual(run(top, '--copy', top), (1, '', 'wrong_bodies.py: %s is neither empty nor an earlier copy\n' % top))
            self.assertTrue(os.path.isfile(os.path.join(top, 'crates/one/must-fail/kept.edit')))

    def test_the_names_are_listed(self):
        with tempfile.TemporaryDirectory() as top:
            self.repository(top, ('a', 'x'), ('b', 'y'))
            self.assertEqual(run(top, '--list'), (0, 'one/a\none/b\n2 wrong bodies of 1 crates\n', ''))
            self.assertEqual(run(top, '--list', 'one/b')[1], 'one/b\n1 wrong bodies of 1 crates\n')
            self.assertEqual(run(top, 'two'), (1, '', 'wrong_bodies.py: no list has two\n'))


if __name__ == '__main__':
    unittest.main()
