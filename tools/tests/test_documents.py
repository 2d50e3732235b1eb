"""Tests of the documents: that each link, path and definition in them is there, and that they show what is printed."""
import glob
import os
import re
import tempfile
import unittest

import script

TOP = os.path.dirname(os.path.dirname(os.path.abspath(script.__file__)))
CRATES = os.path.join(TOP, 'crates')
MOST_README_LINES = 110
MOST_COLUMNS = 120

HEADING = re.compile(r'#{1,6} +(.*?) *#*$')
# The ends of links: what a link is shown as may begin a line before.
LINK = re.compile(r'\]\(([^()\s]+)\)')
REFERENCE = re.compile(r'\]\[([^\[\]]+)\]')
TARGET = re.compile(r'\[([^\[\]]+)\]: +(\S+)$')
CODE = re.compile(r'`([^`]*)`')
# Cited definitions: their names as code, and the label of the file that has them.
CITED = re.compile(r'\[((?:`[^`]+`, )*`[^`]+`)\]\[([^\[\]]+)\]')
# A path of the repository, with a definition file named as specs/NAME or specs/NAME.antt.
FOLDERS = ('docs', 'examples', 'tools', 'bench', 'crates', '.ci')
IN_CRATE = ('specs', 'src', 'proofs', 'must-fail')


def documents():
    """The paths of all documents, from the top."""
    found = glob.glob(os.path.join(TOP, '*.md')) + glob.glob(os.path.join(TOP, 'docs', '*.md'))
    found += glob.glob(os.path.join(CRATES, '*', 'README.md'))
    return sorted(os.path.relpath(path, TOP) for path in found)


def read(top, path):
    """The text of a file, by its path from the top."""
    with open(os.path.join(top, path), encoding='utf-8') as file:
        return file.read()


def prose(text):
    """The lines that are no code, each with its number. Four blanks behind an empty line begin a block of code."""
    lines, in_fence, in_code, before = [], False, False, ''
    for number, line in enumerate(text.split('\n'), 1):
        if line.startswith('```'):
            in_fence = not in_fence
        elif not in_fence:
            in_code = line.startswith('    ') and (in_code or not before) or in_code and not line
            if not in_code:
                lines.append((number, line))
        before = line
    return lines


def slug(heading):
    """The anchor of a heading, as it is made for the page that shows it."""
    kept = ''.join(c for c in heading.lower() if c.isalnum() or c in ' -_')
    return kept.replace(' ', '-')


def anchors(text):
    """The anchors of all headings. One that comes again has a number behind it."""
    seen, found = {}, set()
    for _, line in prose(text):
        heading = HEADING.match(line)
        if heading:
            anchor = slug(heading.group(1))
            count = seen.get(anchor, 0)
            seen[anchor] = count + 1
            found.add('%s-%d' % (anchor, count) if count else anchor)
    return found


def targets(text):
    """The target of each label."""
    return dict(match.groups() for match in (TARGET.match(line) for _, line in prose(text)) if match)


def broken_links(top, path):
    """What is wrong with the links of a document, as texts."""
    text = read(top, path)
    labels, wrong = targets(text), []

    def follow(number, target):
        if re.match(r'[a-z]+:', target):
            return
        place, _, anchor = target.partition('#')
        end = os.path.normpath(os.path.join(os.path.dirname(path), place)) if place else path
        if end.startswith('..') or not os.path.exists(os.path.join(top, end)):
            wrong.append('%s:%d: nothing is at %s' % (path, number, target))
        elif anchor and not (end.endswith('.md') and anchor in anchors(read(top, end))):
            wrong.append('%s:%d: no heading is at %s' % (path, number, target))

    for number, line in prose(text):
        target = TARGET.match(line)
        if target:
            follow(number, target.group(2))
            continue
        shown = CODE.sub('', line)
        for label in REFERENCE.findall(shown):
            if label not in labels:
                wrong.append('%s:%d: no target has the label %s' % (path, number, label))
        for target in LINK.findall(shown):
            follow(number, target)
    return wrong


def lost_paths(path):
    """The paths of the repository that a document names as code, and that are not there."""
    lost = []
    for number, line in prose(read(TOP, path)):
        for word in re.findall(r'[\w./-]+', ' '.join(CODE.findall(line))):
            parts = word.strip('./').split('/')
            if 'NAME' in word or 'out' in parts or len(parts) < 2:
                continue
            if parts[0] in FOLDERS or word.startswith('.ci/'):
                bases = [TOP]
            elif parts[0] in IN_CRATE and path.startswith('crates'):
                bases = [os.path.join(TOP, os.path.dirname(path))]
            elif os.path.isdir(os.path.join(CRATES, parts[0])) and parts[1] in IN_CRATE:
                bases = [CRATES]
            else:
                continue
            ends = [os.path.join(base, word + ending) for base in bases for ending in ('', '.antt', '.rt')]
            if not any(os.path.exists(end) for end in ends):
                lost.append('%s:%d: %s' % (path, number, word))
    return lost


def defines(text, name):
    """Whether a file of specs or of code defines the name, in public."""
    words = r'(?:abbrev|unfoldable|record|data|enum|struct|trait|const|fn|type|ghost)'
    line = r'^ *(?:%s )*pub (?:%s )*%s(?![\w-])' % (words, words, re.escape(name))
    return re.search(line, text, re.MULTILINE) is not None


def lost_definitions(path):
    """The definitions that a document cites, and that the file of their label does not have."""
    text = read(TOP, path)
    labels, lost = targets(text), []
    for number, line in prose(text):
        for names, label in CITED.findall(line):
            end = os.path.normpath(os.path.join(os.path.dirname(path), labels.get(label, '')))
            for name in CODE.findall(names):
                if not os.path.isfile(os.path.join(TOP, end)) or not defines(read(TOP, end), name):
                    lost.append('%s:%d: %s has no `%s`' % (path, number, end, name))
    return lost


def shown(path, example):
    """Whether a document has all lines of an example's output as a block of code."""
    lines = read(TOP, os.path.join('examples', example)).splitlines()
    return '\n\n' + ''.join('    %s\n' % line for line in lines) + '\n' in read(TOP, path)


def crates():
    """What each crate of crates.txt stands on, of this repository and of the kit."""
    lines = [line for line in read(TOP, 'crates.txt').splitlines() if line and not line.startswith('#')]
    return {line.partition(':')[0].split()[0]: line.partition(':')[2].split() for line in lines}


def storeys(drawing):
    """The crates of each storey of a drawing, the uppermost first. A line of hyphens parts two storeys."""
    found = [[]]
    for line in drawing.splitlines():
        if '|' in line:
            found[-1] += line.partition('|')[2].split()
        else:
            found.append([])
    return found


def blocks(text):
    """The blocks of code of a document: lines that are four blanks in, without those."""
    return [re.sub('^    ', '', block, flags=re.MULTILINE) for block in re.findall(r'(?<=\n\n)(?:    .*\n)+', text)]


class Links(unittest.TestCase):
    def test_each_link_leads_somewhere(self):
        self.assertEqual([line for path in documents() for line in broken_links(TOP, path)], [])

    def test_each_path_that_is_named_is_there(self):
        self.assertEqual([line for path in documents() for line in lost_paths(path)], [])

    def test_each_file_that_a_shown_command_names_is_there(self):
        named = [(path, word) for path in documents() for block in blocks(read(TOP, path))
                 for word in re.findall(r'(?:^|[ /])((?:%s)/[\w./-]+)' % '|'.join(map(re.escape, FOLDERS)), block, re.MULTILINE)]
        self.assertIn(('README.md', 'examples/side_by_side.script'), named)
        self.assertEqual([line for line in named if not os.path.exists(os.path.join(TOP, line[1]))], [])

    def test_broken_links_are_found(self):
        page = ('# One, two `three`\n\n[good](b.md) [good](b.md#a-b) [good](#one-two-three) [good][l] `[no](link.md)`\n'
                '[no file](c.md) [no heading](b.md#c) [no heading here](#two) [no label][m] [outside](../a.md) [two\n'
                'lines](c.md) `[no][m]`\n\n'
                '    [code](c.md)\n\n[l]: b.md\n[n]: d.md\n')
        with tempfile.TemporaryDirectory() as top:
            for name, text in (('a.md', page), ('b.md', '## A b\n')):
                with open(os.path.join(top, name), 'w') as file:
                    file.write(text)
            self.assertEqual(broken_links(top, 'b.md'), [])
            self.assertEqual(broken_links(top, 'a.md'), [
                'a.md:4: no target has the label m', 'a.md:4: nothing is at c.md', 'a.md:4: no heading is at b.md#c',
                'a.md:4: no heading is at #two', 'a.md:4: nothing is at ../a.md', 'a.md:5: nothing is at c.md',
                'a.md:10: nothing is at d.md'])

    def test_headings_have_the_anchors_of_their_page(self):
        page = '# A b-c_d\n\n## `run`, e.g.: 2\n\n## A b-c_d\n\n    # code\n'
        self.assertEqual(anchors(page), {'a-b-c_d', 'run-eg-2', 'a-b-c_d-1'})


class Definitions(unittest.TestCase):
    def test_each_definition_that_is_cited_is_in_its_file(self):
        path = os.path.join('docs', 'DEFINITIONS.md')
        self.assertGreater(len(CITED.findall(read(TOP, path))), 50)
        self.assertEqual(lost_definitions(path), [])

    def test_what_a_definition_is(self):
        text = ('abbrev pub is_good : A\npub record IsName (name : A) : B where\n  abbrev pub chain_from : A\n'
                'pub struct Turns {\n    pub fn source(&self)\nabbrev pub odd : A\nodd = even\n')
        for name in ('is_good', 'IsName', 'chain_from', 'Turns', 'source', 'odd'):
            self.assertTrue(defines(text, name), name)
        for name in ('is', 'good', 'IsNam', 'chain', 'even', 'name'):
            self.assertFalse(defines(text, name), name)


class Map(unittest.TestCase):
    def setUp(self):
        self.text = read(TOP, 'docs/ARCHITECTURE.md')
        self.storeys = storeys(blocks(self.text)[0])

    def test_the_drawing_and_the_tables_have_each_crate_once(self):
        self.assertEqual(sorted(sum(self.storeys, [])), sorted(crates()))
        self.assertEqual(sorted(re.findall(r'^\| `(\w+)` \|', self.text, re.MULTILINE)), sorted(crates()))

    def test_a_crate_stands_only_on_its_own_storey_and_on_those_below(self):
        storey_of = {crate: number for number, storey in enumerate(self.storeys) for crate in storey}
        wrong = ['%s stands on %s' % (crate, below) for crate, all_below in crates().items() for below in all_below
                 if below in storey_of and (storey_of[below] < storey_of[crate] or storey_of[below] == 0)]
        self.assertEqual(wrong, [])

    def test_what_a_drawing_says(self):
        self.assertEqual(storeys('a run  |  one  two\n       |  three\n-------+------\nbelow  |  four\n'), [['one', 'two', 'three'], ['four']])


class Texts(unittest.TestCase):
    def test_the_readme_is_short(self):
        self.assertLessEqual(len(read(TOP, 'README.md').splitlines()), MOST_README_LINES)

    def test_lines_of_prose_are_short(self):
        long = ['%s:%d' % (path, number) for path in documents() for number, line in prose(read(TOP, path))
                if len(line) > MOST_COLUMNS and not line.startswith('|') and ' ' in line.strip()]
        self.assertEqual(long, [])

    def test_examples_are_shown_as_they_print(self):
        for path, example in (('README.md', 'saved_2.output'),
                              ('docs/FORMATS.md', 'remove_and_purge.output')):
            self.assertTrue(shown(path, example), (path, example))

    def test_reports_that_are_shown_have_nothing_odd(self):
        import journal
        from report import read_report
        reports = [report for report in blocks(read(TOP, 'docs/FORMATS.md')) if '\nmode r0 ' in report]
        self.assertGreater(len(reports), 1)
        for report in reports:
            self.assertEqual(journal.check(read_report(report)), '', report)

    def test_each_picture_is_that_of_a_run_side_by_side(self):
        import asked
        import journal
        import picture
        from report import read_report
        for name in 'side_by_side', 'backup_beside_writes':
            with open(os.path.join(TOP, 'examples/%s.script' % name), 'rb') as given:
                its = asked.read_script(given.read())
            report = read_report(read(TOP, 'docs/%s.output' % name))
            self.assertEqual(journal.check(report, its), '', name)
            self.assertTrue(any(line.saw < line.place for line in report.journal if hasattr(line, 'saw')), name)
            self.assertEqual(read(TOP, 'docs/%s.svg' % name), picture.draw(report), name)


if __name__ == '__main__':
    unittest.main()
