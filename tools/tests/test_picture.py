"""Tests of the picture that journal.py draws."""
import itertools
import random
import re
import unittest
from xml.etree import ElementTree

import asked
import picture
import script
from generated_runs import run_text
from layout import ONE_LINE, needed_labels
from report import read_report
from side_by_side import report_of
from test_journal import ABORTED, COMMANDS, HEAD, ONE_STREAM, REBUILD, SAVED, SIDE_BY_SIDE

SVG = '{http://www.w3.org/2000/svg}'


def drawn(report, **limits):
    """The picture of a report, as a tree of elements."""
    return ElementTree.fromstring(picture.draw(read_report(report), **limits))


def texts(tree):
    """The texts of a picture."""
    return [element.text for element in tree.iter(SVG + 'text')]


def places(tree):
    """Where each place begins, by its number as a text."""
    return {element.text: float(element.get('x')) for element in tree.iter(SVG + 'text') if re.fullmatch('[0-9]+', element.text)}


def boxes(tree):
    """The texts that show where a pointer rests on the bar of a call, at its place."""
    return list(dict.fromkeys(element.text for element in tree.iter(SVG + 'title') if element.text.startswith('place ')))


def spans(tree):
    """Where the bar of each call begins and ends, by the call's place; of a bar in several bands in the last one."""
    found = {}
    for bar in tree.iter(SVG + 'rect'):
        title = bar.find(SVG + 'title')
        place = title is not None and re.match('place ([0-9]+), saw', title.text)
        if place:
            left, end = float(bar.get('x')), float(bar.get('x')) + float(bar.get('width'))
            before = found.get(int(place[1]), (left, end))
            found[int(place[1])] = min(left, before[0]), max(end, before[1])
    return found


def long_run(count, streams):
    """The report of a run of so many calls by turns of streams, each of which saw as much as it could."""
    calls = ['read %d 4096' % (4096 * place) if place % 3 else 'snapshot nightly-%d' % place for place in range(count)]
    answers = ['error out of range' if place % 100 == 50 else 'ok 00*4096' if place % 3 else 'ok' for place in range(count)]
    lines = ['%d %d %d %d %s %s' % (place, max(0, place - streams + 1), place % streams, place // streams, call, answer)
             for place, (call, answer) in enumerate(zip(calls, answers))]
    return '\n'.join([*lines, 'mode r0 RW', 'chain r0 head s', 'head r0 ' + HEAD, ''])


class Picture(unittest.TestCase):
    def test_each_call_has_a_box_with_all_that_it_says(self):
        tree = drawn(ONE_STREAM)
        self.assertEqual(len(boxes(tree)), 5)
        self.assertIn('place 3, saw 3, stream 0, call 3: read 2097151 4: error out of range', boxes(tree))
        for text in ('stream 0', 'r0', 'write', '4095+1', '61*1', 'out of range', 'other', 'replica in mode RW'):
            self.assertIn(text, texts(tree))
        self.assertIn('5 calls of 1 stream on 1 replica, 2 refused', texts(tree))

    def test_a_refused_call_has_a_red_border(self):
        boxed = [element for element in drawn(ONE_STREAM).iter(SVG + 'rect') if element.find(SVG + 'title') is not None]
        red = [element for element in boxed if element.get('stroke') == picture.RED]
        self.assertEqual(len(red), 2)

    def test_names_marks_and_the_chain_are_shown(self):
        for text in ('s into t', 'u dropped', 'layers', 'name used', 'no such snapshot', 'head', 't'):
            self.assertIn(text, texts(drawn(COMMANDS)))
        removed = drawn(COMMANDS.replace('chain r0 head t', 'chain r0 head t s*'))
        self.assertTrue({'s*', 'removed layer'} <= set(texts(removed)))
        for text in ('failed', 'added from r0, sys-0', 'promoted', 'fault w2 #1', 'r0, r1 at the end: ERR', 'a replica falls'):
            self.assertIn(text, texts(drawn(REBUILD)))
        self.assertIn('salvaged', texts(drawn(SAVED)))

    def test_a_rebuild_has_its_colour_from_its_beginning_to_its_end(self):
        for report, ends in ((REBUILD, [(3, 5)]), (ABORTED, [(3, 5), (8, 10)])):
            tree = drawn(report)
            bars = [bar for bar in tree.iter(SVG + 'rect') if bar.get('fill') == picture.MODES[picture.WO]]
            # The last one is that of the legend.
            spans = [(float(bar.get('x')), float(bar.get('x')) + float(bar.get('width'))) for bar in bars[:-1]]
            lefts = places(tree)
            self.assertEqual([tuple(round(end, 1) for end in span) for span in spans],
                             [tuple(round(lefts[str(place)] + 6, 1) for place in span) for span in ends])
            self.assertTrue({'replica in mode WO, being rebuilt', 'a rebuild begins', 'a replica is read again'} <= set(texts(tree)))

    def test_a_rebuild_is_joined_to_its_source(self):
        tree = drawn(ABORTED)
        joined = [line for line in tree.iter(SVG + 'line') if line.get('stroke-width') == '1.5']
        self.assertEqual([round(float(line.get('x1')), 1) for line in joined], [round(places(tree)[at] + 6, 1) for at in ('3', '8')])
        # From r0 down to r1, and from r2 up to it.
        self.assertLess(float(joined[0].get('y1')), float(joined[0].get('y2')))
        self.assertGreater(float(joined[1].get('y1')), float(joined[1].get('y2')))

    def test_a_bar_reaches_from_what_a_call_saw_to_its_place(self):
        for report in (REBUILD, SIDE_BY_SIDE, ABORTED):
            tree = drawn(report)
            lefts, bars = places(tree), spans(tree)
            for entry in read_report(report).entries:
                begin, end = bars[entry.place]
                self.assertAlmostEqual(begin, lefts[str(entry.saw)] + 1, delta=0.2)
                self.assertGreater(end, lefts[str(entry.place)])
                self.assertLess(end, lefts.get(str(entry.place + 1), 1e9))

    def test_calls_that_overlap_have_bars_that_overlap(self):
        for report in (ONE_STREAM, REBUILD, ABORTED, SIDE_BY_SIDE):
            bars, entries = spans(drawn(report)), read_report(report).entries
            for one, other in itertools.combinations(entries, 2):
                overlap = one.saw <= other.place and other.saw <= one.place
                (left, right), (begin, end) = bars[one.place], bars[other.place]
                self.assertEqual(left < end and begin < right, overlap, (one, other))

    def test_it_says_where_another_run_may_have_another_order(self):
        self.assertIn('Places from left to right.', texts(drawn(ONE_STREAM)))
        noted = texts(drawn(SIDE_BY_SIDE))[1:3]
        self.assertEqual(noted, ['Places from left to right. Bars one above the other are calls that overlap: at most 2 at once.',
                                 'Another run may have another order.'])

    def test_a_title_and_a_description_say_it_in_words(self):
        title, description = list(drawn(REBUILD))[:2]
        self.assertEqual((title.tag, description.tag), (SVG + 'title', SVG + 'desc'))
        self.assertEqual(title.text, texts(drawn(REBUILD))[0])
        self.assertTrue(description.text.startswith('Places from left to right. '))
        self.assertTrue(description.text.endswith(' with its marks. At the end: r0 ERR, r1 ERR.'), description.text)
        self.assertTrue(list(drawn(''))[1].text.endswith(' with its marks.'))

    def test_a_bar_goes_on_in_the_next_band(self):
        lines = ['%d %d 0 %d read 0 4096 ok 00*4096' % (place, place, place) for place in range(30)]
        lines += ['30 2 1 0 write 0 1 61*1 ok', 'mode r0 RW', 'chain r0 head', 'head r0 ' + HEAD]
        tree = drawn('\n'.join(lines))
        titles = [element.text for element in tree.iter(SVG + 'title')]
        parts = [title for title in titles if title.startswith('goes on to place 30, saw 2, stream 1, call 0: write')]
        self.assertEqual(len(parts), texts(tree).count('place') - 1)
        self.assertEqual(boxes(tree)[-1], 'place 30, saw 2, stream 1, call 0: write 0 1 61*1: ok')

    def test_a_fault_hangs_on_the_stream_whose_line_failed(self):
        tree = drawn(SIDE_BY_SIDE)
        # The last one is that of the legend.
        (dot, _), begin = tree.iter(SVG + 'circle'), places(tree)['0'] + 6
        dashed = [line for line in tree.iter(SVG + 'line') if line.get('stroke-dasharray')]
        self.assertAlmostEqual(float(dot.get('cx')), begin, delta=0.2)
        self.assertEqual((dashed[0].get('x1'), dashed[0].get('y1')), (dot.get('cx'), dot.get('cy')))
        # It begins at the write of stream 1, below the lane of stream 0.
        names = {element.text: float(element.get('y')) for element in tree.iter(SVG + 'text')}
        self.assertTrue(names['stream 1'] < float(dashed[0].get('y1')) < float(dashed[0].get('y2')))
        self.assertIn('the line of that stream to the replica failed', texts(tree))

    def test_sixteen_streams_can_be_read(self):
        chance = random.Random(7)
        report = report_of(asked.read_script(script.make(run_text(chance, 16, 5))), chance)
        tree, entries = drawn(report), read_report(report).entries
        self.assertEqual(len(boxes(tree)), len(entries))
        self.assertLess(float(tree.get('height')), 1600)
        # Each has its kind and its range or names on its bar, and none has bytes or a refusal there.
        for entry in entries:
            self.assertIn(needed_labels(entry, ONE_LINE)[0], texts(tree))
        calls = [text for text in texts(tree) if re.match('[RW] ', text)]
        self.assertTrue(calls)
        self.assertEqual([text for text in calls if not re.fullmatch(r'[RW] [0-9KMG-]+\+[0-9KMG]+', text)], [])
        self.assertTrue({'stream 0', 'stream 15', 'W: write', 'snap: snapshot'} <= set(texts(tree)))

    def test_300_calls_are_all_there(self):
        tree = drawn(long_run(300, 3))
        self.assertEqual(len(boxes(tree)), 300)
        self.assertFalse([text for text in texts(tree) if 'left out' in text.lower()])
        self.assertTrue({'nightly-0', 'nightly-297', 'snap: snapshot'} <= set(texts(tree)))
        self.assertIn('3 calls refused, out of range: places 50, 150, 250', texts(tree))
        self.assertLess(float(tree.get('height')), 4500)

    def test_it_says_what_it_leaves_out(self):
        tree = drawn(long_run(300, 3), most=20)
        self.assertEqual(len(boxes(tree)), 20)
        self.assertIn('places 10 to 289 are left out here: 280 of 300', texts(tree))
        self.assertTrue(any(text.endswith(' Left out in the middle: 280 of 300 places.') for text in texts(tree)))
        low = drawn(long_run(2000, 16), height=1500)
        self.assertLess(float(low.get('height')), 2000)
        self.assertTrue(any('are left out here' in text for text in texts(low)))
        chain = ' '.join('n%d' % number for number in range(249))
        self.assertTrue(any(text.endswith('layers are left out here')
                            for text in texts(drawn('mode r0 RW\nchain r0 head %s\nhead r0 %s\n' % (chain, HEAD)))))

    def test_all_stands_within_the_picture(self):
        for report in (ONE_STREAM, COMMANDS, REBUILD, ABORTED, SAVED, SIDE_BY_SIDE, long_run(70, 9), long_run(300, 16), ''):
            tree = drawn(report)
            width, height = float(tree.get('width')), float(tree.get('height'))
            # All but the title, the description and the background.
            for element in list(tree)[3:]:
                right = float(element.get('x', element.get('x2', 0))) + float(element.get('width', 0))
                if element.tag == SVG + 'text':
                    right += 6 * len(element.text)
                bottom = float(element.get('y', element.get('y2', 0))) + float(element.get('height', 0))
                self.assertLessEqual(right, width, element.text)
                self.assertLessEqual(bottom, height, element.text)


if __name__ == '__main__':
    unittest.main()
