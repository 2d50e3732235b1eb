"""Tests of journal.py: what is odd, and the table."""
import os
import random
import subprocess
import sys
import tempfile
import unittest

import asked
import journal
import picture
import script
from findings import find_odd
from generated_runs import rebuild_text, run_text
from report import read_report
from side_by_side import report_of

TOOL = journal.__file__
HEAD = '731859029215873fdac1c9f2f8bd25a334abf0f3a9e1b057cf2cacc2826d86b0'
OTHER_HEAD = '85f0f89e45067bf835186d74db75cef739d5a1ccdff92f301eb2c1cfbc74ca96'
# The digest of `ab` and then zeros, 2,097,152 bytes together, as sha512sum gives it.
AB_HEAD = 'd73b05db32fc16389f6ef05f8a008a1d31eb2d6aeccf44c5037a5c53144403be'
OUT_OF_RANGE = '6f*1,75*1,74*1,20*1,6f*1,66*1,20*1,72*1,61*1,6e*1,67*1,65*1'

ONE_STREAM = '''0 0 0 0 write 4095 1 61*1 ok
1 1 0 1 read 4094 4 ok 00*1,61*1,00*2
2 2 0 2 ping ok
3 3 0 3 read 2097151 4 error out of range
4 4 0 4 other 7 error unsupported
reply 0 0 1 2 4095 1 -
reply 0 1 2 2 4094 4 00*1,61*1,00*2
reply 0 2 3 2 0 0 -
reply 0 3 4 3 2097151 12 %s
reply 0 4 5 3 0 11 75*1,6e*1,73*1,75*1,70*2,6f*1,72*1,74*1,65*1,64*1
mode r0 RW
chain r0 head
head r0 %s
''' % (OUT_OF_RANGE, OTHER_HEAD)

COMMANDS = '''0 0 0 0 snapshot s ok
1 1 0 1 snapshot s error name used
2 2 0 2 snapshot t ok
3 3 0 3 remove s ok
4 4 0 4 revert s error no such snapshot
5 5 0 5 status ok layers 3 modes RW
6 mark folded s t
7 6 0 6 purge ok
8 8 0 7 snapshot u ok
9 9 0 8 revert t ok
10 10 0 9 remove u ok
11 mark dropped u
12 11 0 10 purge ok
mode r0 RW
chain r0 head t
head r0 %s
''' % HEAD

# A replica fails, is rebuilt and goes on alone; stream 2 had seen little when its calls ended.
REBUILD = '''0 0 0 0 write 0 1 61*1 ok
1 mark failed r1
2 1 1 0 fail r1 ok
3 mark added r1 r0 sys-0
4 0 2 0 write 4096 1 62*1 ok
5 mark promoted r1
6 3 1 1 add r1 ok
7 mark failed r0
8 7 1 2 fail r0 ok
9 6 2 1 read 0 1 ok 61*1
10 mark fault 2 r1 1
11 10 2 2 write 0 1 63*1 error no replica
reply 0 0 1 2 0 1 -
reply 2 0 1 2 4096 1 -
reply 2 1 2 2 0 1 61*1
reply 2 2 3 3 0 10 6e*1,6f*1,20*1,72*1,65*1,70*1,6c*1,69*1,63*1,61*1
mode r0 ERR
mode r1 ERR
'''

# A rebuild is aborted since its source fails, and the next one is not; then nothing is left to rebuild from.
ABORTED = '''0 mark failed r1
1 0 0 0 fail r1 ok
2 2 0 1 add r2 error in use
3 mark added r1 r0 sys-0
4 mark failed r0
5 mark aborted r1
6 3 1 0 fail r0 ok
7 3 0 2 add r1 error aborted 5
8 mark added r1 r2 sys-1
9 8 1 1 status ok layers 3 modes ERR,WO,RW
10 mark promoted r1
11 8 0 3 add r1 ok
12 mark fault 1 r2 1
13 mark failed r1
14 12 1 2 fail r1 ok
15 12 0 4 add r1 error no replica
mode r0 ERR
mode r1 ERR
mode r2 ERR
'''

SAVED = '''open r0 RW
open r1 ERR unclean Dirty
0 0 0 0 revert old ok
1 mark fault 0 r0 3
2 1 0 1 write 0 1 61*1 error no replica
3 mark salvaged r0 2
4 3 1 0 salvage r0 ok
reply 0 1 1 3 0 10 6e*1,6f*1,20*1,72*1,65*1,70*1,6c*1,69*1,63*1,61*1
mode r0 RW
mode r1 ERR
chain r0 head old
head r0 %s
''' % HEAD

# Two streams side by side: both writes began before either ended, and so did both reads.
SIDE_BY_SIDE_TEXT = '''volume v 2M
replicas 2
fault worker 1 replica 1 carries 1
stream frames
  write 0 "aa"
  read 0 2
stream frames
  write 1 "b"
  read 0 2
'''
SIDE_BY_SIDE = '''0 mark fault 1 r1 1
1 0 0 0 write 0 2 61*2 ok
2 0 1 0 write 1 1 62*1 ok
3 3 1 1 read 0 2 ok 61*1,62*1
4 2 0 1 read 0 2 ok 61*1,62*1
reply 0 0 1 2 0 2 -
reply 0 1 2 2 0 2 61*1,62*1
reply 1 0 1 2 1 1 -
reply 1 1 2 2 0 2 61*1,62*1
mode r0 RW
mode r1 ERR
chain r0 head
head r0 %s
''' % AB_HEAD

# While a rebuild that is aborted has no answer yet, an `add` of another replica is refused.
OTHER_ADD = '''0 mark failed r1
1 0 0 0 fail r1 ok
2 mark added r1 r0 sys-0
3 mark fault 0 r1 1
4 mark aborted r1
5 2 1 0 add r0 error in use
6 2 0 1 add r1 error aborted 4
mode r0 RW
mode r1 ERR
chain r0 head sys-0
head r0 %s
''' % HEAD

# Three sessions: of one the client closed, of one a bad frame came, and one had no client that called.
SESSIONS = '''0 0 0 0 write 4095 1 61*1 ok
1 0 1 0 read 4095 1 ok 61*1
2 2 0 1 ping ok
3 2 1 1 other 9 error unsupported
session 0 closed 2 4
session 1 frame 52 2 4
session 2 ended 0 0
mode r0 RW
chain r0 head
head r0 %s
''' % OTHER_HEAD

GOOD = (ONE_STREAM, COMMANDS, REBUILD, ABORTED, SAVED, SIDE_BY_SIDE, OTHER_ADD, SESSIONS)
# A report, a text of it, what stands there instead, and what is found, with the number of its line.
BREAKS = [
    (ONE_STREAM, '2 2 0 2 ping', '3 2 0 2 ping', 'line 3: has place 3, where 2 comes next'),
    (ONE_STREAM, '2 2 0 2 ping ok\n', '', 'line 3: has place 3, where 2 comes next'),
    (ONE_STREAM, '2 2 0 2 ping', '2 2 0 3 ping', 'line 3: is call 3 of stream 0, where call 2 comes next'),
    (ONE_STREAM, '2 2 0 2 ping', '2 3 0 2 ping', 'line 3: saw 3, which is past its own place 2'),
    (ONE_STREAM, '2 2 0 2 ping', '2 1 0 2 ping', 'line 3: saw 1, but the call before it in stream 0 ended at place 1'),
    (ONE_STREAM, '2 2 0 2 ping ok', '2 2 0 2 pong ok', 'line 3: is no line of a report: `2 2 0 2 pong ok`'),
    (ONE_STREAM, '2 2 0 2 ping ok', '2 2 0 2 ping ok 00*1', 'line 3: is no line of a report'),
    (ONE_STREAM, '2 2 0 2 ping ok', '2 2 0 2 ping error out of range', 'line 3: is refused as `out of range`, which no `ping` is'),
    (ONE_STREAM, 'other 7 error unsupported', 'other 7 ok', 'line 5: is `ok`, but a frame of another type'),
    (ONE_STREAM, 'read 4094 4 ok', 'read 4094 5 ok', 'line 2: has 4 bytes, and its length is 5'),
    (ONE_STREAM, 'write 4095 1 61*1 ok', 'write 4095 2 61*1,61*1 ok', 'line 1: has two runs of one byte side by side'),
    (ONE_STREAM, 'read 4094 4 ok', 'read -4 4 ok', 'line 2: is `ok` at a negative offset'),
    (ONE_STREAM, 'read 2097151 4 error out of range', 'read 2097151 1048577 error out of range', 'line 4: of 1048577 bytes is answered'),
    (ONE_STREAM, 'reply 0 2 3 2 0 0 -\n', '', 'line 3: is call 2 of stream 0, which has no reply line'),
    (ONE_STREAM, 'reply 0 2 3 2 0 0 -', 'reply 0 9 3 2 0 0 -', 'line 8: replies to call 9 of stream 0, which has no entry'),
    (ONE_STREAM, 'reply 0 2 3 2 0 0 -', 'reply 0 2 3 2 0 0 -\nreply 0 2 3 2 0 0 -', 'line 9: replies to call 2 of stream 0 once more'),
    (ONE_STREAM, 'reply 0 2 3 2 0 0 -', 'reply 0 2 3 2 0 1 -', 'line 8: has the size 1, and its entry in line 3 makes it 0'),
    (ONE_STREAM, 'reply 0 2 3 2 0 0 -', 'reply 0 2 3 3 0 0 -', 'line 8: has the type 3, and its entry in line 3 makes it 2'),
    (ONE_STREAM, '4094 4 00*1,61*1,00*2\nreply', '4094 4 00*4\nreply', 'line 7: has the bytes 00*4, and its entry in line 2'),
    (ONE_STREAM, 'reply 0 0 1 2 4095 1 -', 'reply 0 0 1 2 4094 1 -', 'line 6: has the offset 4094, and its entry in line 1 has 4095'),
    (ONE_STREAM, 'mode r0 RW\nchain r0 head\n', 'chain r0 head\nmode r0 RW\n', 'line 12: stands behind a line of the group `chain`'),
    (ONE_STREAM, 'mode r0 RW', 'mode r0 ERR', 'line 11: gives r0 the mode ERR, and the journal RW'),
    (ONE_STREAM, 'mode r0 RW', 'mode r1 RW', 'line 11: begins modes of r1, where each replica has one, in order'),
    (ONE_STREAM, 'chain r0 head\n', '', 'the report has `chain` of none, and in mode RW is r0'),
    (ONE_STREAM, 'chain r0 head\n', 'chain r0 head s\n', 'line 12: gives the chain `head s`, and the journal `head`'),
    (ONE_STREAM, 'mode r0 RW\n', 'mode r0 RW\nmode r1 RW\n', 'line 13: has `chain` of r0, and in mode RW is r0, r1'),
    (ONE_STREAM, 'mode r0 RW\nchain r0 head\nhead r0 %s\n' % OTHER_HEAD, '', 'the report has no modes at its end'),
    (COMMANDS, '1 1 0 1 snapshot s error name used', '1 1 0 1 snapshot r error name used', 'line 2: is answered `error name used`, but'),
    (COMMANDS, '2 2 0 2 snapshot t ok', '2 2 0 2 snapshot t error chain full', 'line 3: is answered `error chain full`, and there are 2 layers'),
    (COMMANDS, '4 4 0 4 revert s error no such snapshot', '4 4 0 4 revert s ok', 'line 5: is answered `ok`, but there is no snapshot'),
    (COMMANDS, '3 3 0 3 remove s ok', '3 3 0 3 remove s error no such snapshot', 'line 4: is answered `error no such snapshot`, but there is a'),
    (COMMANDS, 'layers 3', 'layers 2', 'line 6: tells 2 layers, and there are 3'),
    (COMMANDS, 'layers 3 modes RW', 'layers 3 modes RW,RW', 'line 6: tells the modes RW,RW, which are RW'),
    (COMMANDS, 'folded s t', 'folded t s', 'line 7: takes t away, which is not marked'),
    (COMMANDS, 'folded s t', 'dropped s', 'line 7: takes s away, on which stands t'),
    (COMMANDS, '9 9 0 8 revert t ok', '9 9 0 8 status ok layers 3 modes RW', 'line 12: takes u away, on which the head stands'),
    (COMMANDS, '11 mark dropped u\n12 11 0 10', '11 11 0 10', 'line 12: is `ok`, but there is still to fold or to drop: u'),
    (COMMANDS, '6 mark folded s t\n7 6 0 6 purge ok\n8 8', '6 6 0 6 purge ok\n7 7', 'line 7: is `ok`, but there is still to fold or to drop: s'),
    (COMMANDS, '7 6 0 6 purge ok', '7 7 0 6 purge ok', 'line 7: stands in no `purge` that saw what is before it'),
    (COMMANDS, '12 11 0 10 purge ok', '12 11 0 10 snapshot v ok', 'line 12: stands in no `purge` that saw what is before it'),
    (REBUILD, '11 10 2 2 write 0 1 63*1 error no replica', '11 mark dropped sys-0', 'line 12: takes sys-0 away, but no replica is RW'),
    (REBUILD, 'error no replica', 'ok', 'line 12: is `ok`, but no replica is RW'),
    (REBUILD, 'read 0 1 ok 61*1', 'read 0 1 error no replica', 'line 10: is refused as `no replica`, but r1 is RW'),
    (REBUILD, '8 7 1 2 fail r0 ok', '8 7 1 2 fail r1 ok', 'line 8: has no `fail r0 ok` behind it'),
    (REBUILD, '8 7 1 2 fail r0 ok', '8 7 1 2 fail r1 ok', 'line 9: is `ok`, but r1 is RW'),
    (REBUILD, '8 7 1 2 fail r0 ok', '8 7 1 2 fail r7 ok', 'line 9: names r7, which the report has no mode of'),
    (REBUILD, 'fault 2 r1 1', 'fault 2 r1 0', 'line 11: has the count 0, and the fault before it on that line 0'),
    (REBUILD, 'fault 2 r1 1', 'fault 2 r0 1', 'line 11: takes r0 to ERR, which is ERR already'),
    (REBUILD, 'added r1 r0 sys-0', 'added r1 r1 sys-0', 'line 4: takes r1 as the source, which is not the lowest replica'),
    (REBUILD, 'promoted r1', 'promoted r0', 'line 6: ends a rebuild of r0, and none has begun'),
    (REBUILD, '1 mark failed r1', '1 mark promoted r1', 'line 2: takes r1 to RW, which is RW and not WO'),
    (REBUILD, '6 3 1 1 add r1 ok', '6 3 1 1 add r1 error in use', 'line 6: has no `add r1 ok` behind it'),
    (REBUILD, '6 3 1 1 add r1 ok', '6 3 1 1 status ok layers 2 modes RW,RW', 'line 4: stands in no `add r1` that saw'),
    (ABORTED, 'add r2 error in use', 'add r2 ok', 'line 3: is answered `ok`, and the journal makes it `error in use`'),
    (ABORTED, 'added r1 r0 sys-0', 'added r2 r0 sys-0', 'line 4: begins with r2 as RW, and not as ERR'),
    (ABORTED, 'added r1 r0 sys-0', 'added r1 r0 t', 'line 4: is no line of a report'),
    (ABORTED, '4 mark failed r0\n5 mark aborted r1', '4 mark failed r0', 'line 5: ends the rebuild of r1 from r0, and has no mark'),
    (ABORTED, '5 mark aborted r1', '5 mark fault 1 r2 1', 'line 5: ends the rebuild of r1 from r0, and has no mark `aborted r1`'),
    (ABORTED, '5 mark aborted r1', '5 mark fault 1 r2 1', 'line 5: has no `fail r0 ok` behind it'),
    (ABORTED, '4 mark failed r0', '4 mark fault 1 r2 1', 'line 6: has no mark before it by which r1 or r0 fell'),
    (ABORTED, '4 mark failed r0', '4 2 1 0 ping ok', 'line 6: has no mark before it by which r1 or r0 fell'),
    (ABORTED, '7 3 0 2 add r1', '7 4 0 2 add r1', 'line 4: stands in no `add r1` that saw what is before it'),
    (ABORTED, 'error aborted 5', 'error aborted 4', 'line 8: is answered `error aborted 4`, and the'),
    (ABORTED, 'error aborted 5', 'ok', 'line 8: is answered `ok`, and the journal makes it `error aborted 5`'),
    (ABORTED, 'r2 sys-1', 'r2 sys-0', 'line 9: names its layer sys-0, and the head has the number 1'),
    (ABORTED, '8 mark added r1 r2 sys-1', '8 8 0 3 add r1 ok', 'line 9: is answered `ok`, but no rebuild of r1 has begun'),
    (ABORTED, '9 8 1 1 status ok layers 3 modes ERR,WO,RW', '9 mark added r0 r2 sys-2', 'line 10: begins a rebuild of r0, and that'),
    (ABORTED, 'ERR,WO,RW', 'ERR,RW,RW', 'line 10: tells the modes ERR,RW,RW, which are ERR,WO,RW'),
    (ABORTED, 'layers 3', 'layers 2', 'line 10: tells 2 layers, and there are 3'),
    (ABORTED, '10 mark promoted r1\n11', '10', 'line 11: is answered `ok`, but the rebuild of r1 has not ended'),
    (ABORTED, '11 8 0 3 add r1 ok', '11 8 0 3 add r1 error aborted 10', 'line 12: is answered `error aborted 10`, and the'),
    (ABORTED, 'add r1 error no replica', 'add r1 error in use', 'line 16: is answered `error in use`, and'),
    (OTHER_ADD, 'add r1 error aborted 4', 'add r1 error in use', 'line 7: is answered `error in use`, and the journal makes it `error aborted 4`'),
    (SIDE_BY_SIDE, '3 3 1 1 read 0 2 ok 61*1,62*1', '3 3 1 0 write 1 1 62*1 ok', 'line 4: is call 0 of stream 1, where call 1 comes'),
    (SIDE_BY_SIDE, '3 3 1 1 read 0 2 ok 61*1,62*1', '3 3 1 1 read 0 2 ok 61*2',
     'line 4: reads `61*2`, and a plain disk has `61*1,62*1` there'),
    (SIDE_BY_SIDE, '1 0 0 0 write 0 2 61*2 ok\n2 0 1 0 write 1 1 62*1 ok', '1 0 1 0 write 1 1 62*1 ok\n2 0 0 0 write 0 2 61*2 ok',
     'line 4: reads `61*1,62*1`, and a plain disk has `61*2` there'),
    (SIDE_BY_SIDE, '4 2 0 1', '4 5 0 1', 'line 5: saw 5, which is past its own place 4'),
    (SIDE_BY_SIDE, '4 2 0 1', '4 1 0 1', 'line 5: saw 1, but the call before it in stream 0 ended at place 1'),
    (SIDE_BY_SIDE, '4 2 0 1 read 0 2 ok 61*1,62*1', '4 2 0 1 read 0 2 error no replica', 'line 5: is refused as `no replica`, but r0 is RW'),
    (SIDE_BY_SIDE, '2 0 1 0 write 1 1 62*1 ok', '2 0 1 0 write 1 1048577 62*1048577 ok', 'line 3: writes 1048577 bytes, and a frame'),
    (SAVED, 'salvaged r0 2', 'salvaged r0 -\n4 mark salvaged r0 -', 'line 7: begins with r0 as RW, and not as ERR'),
    (SAVED, 'chain r0 head old\n', 'chain r0 head old\nchain r1 head\n', 'line 11: has `chain` of r0, r1, and in mode RW is r0'),
    (SESSIONS, 'read 4095 1 ok 61*1', 'read 4095 1 ok 00*1', 'line 2: reads `00*1`, and a plain disk has `61*1` there'),
    (SESSIONS, '2 2 0 1 ping ok', '2 2 0 1 snapshot s ok', 'line 3: is `snapshot`, and a session makes calls of frames alone'),
    (SESSIONS, '2 2 0 1 ping', '2 2 3 0 ping', 'line 3: is of session 3, and 3 have ended'),
    (SESSIONS, '3 2 1 1 other 9 error unsupported', '3 mark fault 1 r0 1', 'line 4: is a line that no report of sessions has'),
    (SESSIONS, 'session 2', 'reply 0 1 2 2 0 0 -\nsession 2', 'line 7: is a line that no report of sessions has'),
    (SESSIONS, 'session 2', 'session 3', 'line 7: is of session 3, where session 2 comes next'),
    (SESSIONS, 'session 0 closed 2 4\n', '', 'line 5: is of session 1, where session 0 comes next'),
    (SESSIONS, 'mode r0 RW\n', 'mode r0 RW\nsession 3 ended 0 0\n', 'line 9: stands behind a line of the group `mode`'),
    (SESSIONS, 'closed 2 4', 'closed 1 4', 'line 5: tells 1 calls, and the journal has 2 of session 0'),
    (SESSIONS, 'closed 2 4', 'closed 2 2', 'line 5: saw 2 at last, and its last call ended at place 2'),
    (SESSIONS, 'closed 2 4', 'closed 2 5', 'line 5: saw 5 at last, and the journal has 4 lines'),
    (SESSIONS, 'closed 2 4', 'full 2 4', 'line 5: ends `full` with 2 calls, and a session makes 4096 at most'),
    (SESSIONS, 'closed 2 4', 'shut 2 4', 'line 5: is no line of a report: `session 0 shut 2 4`'),
    (SESSIONS, 'ended 0 0', 'write fault 0 0', 'line 7: ends `write fault` without a call that it replied to'),
    (SESSIONS, 'frame 52', 'frame 51', 'line 6: has a bad frame at 51, and the frames of its calls have 52 bytes'),
]
# What is odd beside the script of SIDE_BY_SIDE: a text of the report, what stands there instead, and what is found.
NOT_OF_THE_SCRIPT = [
    ('fault 1 r1 1', 'fault 1 r1 2', 'line 1: counts 2 faults of the line from worker 1 to r1, for which 1 are planned'),
    ('fault 1 r1 1', 'fault 0 r1 1', 'line 1: counts 1 faults of the line from worker 0 to r1, for which 0 are planned'),
    ('fault 1 r1 1', 'fault 2 r1 1', 'line 1: is of worker 2, and the script has 2 streams'),
    ('fault 1 r1 1', 'fault 1 r2 1', 'line 1: names r2, and the script has 2 replicas'),
    ('4 2 0 1 read 0 2', '4 2 0 1 read 0 3', 'line 5: is `read 0+3`, and its stream asks there for `read 0+2`'),
    ('4 2 0 1 read', '4 2 2 0 read', 'line 5: is of stream 2, and the script has 2'),
    ('reply 0 0', '5 5 0 2 ping ok\nreply 0 0', 'line 6: is call 2 of stream 0, which asks for 2 in all'),
    ('4 2 0 1 read 0 2 ok 61*1,62*1\n', '', 'the report has 1 of the 2 calls of stream 0'),
    ('4 2 0 1 read 0 2 ok 61*1,62*1', '4 2 0 1 read 0 2 error out of range', 'line 5: is answered `error out of range`, and a volume'),
    ('reply 1 1 2', 'reply 1 1 3', 'line 9: has the seq 3, and its frame 2'),
    ('reply 1 0 1 2 1', 'reply 1 0 1 2 0', 'line 8: has the offset 0, and its frame 1'),
    ('mode r1 ERR\n', '', 'line 10: begins modes of r0, where each replica has one'),
    (AB_HEAD, HEAD, 'line 13: gives r0 the digest 73185902…826d86b0, and a'),
]


class Check(unittest.TestCase):
    def test_a_good_report_has_no_finding(self):
        for report in GOOD:
            self.assertEqual(journal.check(read_report(report)), '')

    def test_what_is_odd_is_found(self):
        for report, old, new, found in BREAKS:
            with self.subTest(found, new=new):
                self.assertEqual(report.count(old), 1, old)
                lines = journal.check(read_report(report.replace(old, new))).split('\n')
                self.assertTrue(any(line.startswith(found) for line in lines), lines)

    def test_what_is_not_of_the_script_is_found(self):
        its = asked.read_script(script.make(SIDE_BY_SIDE_TEXT))
        self.assertEqual(journal.check(read_report(SIDE_BY_SIDE), its), '')
        for old, new, found in NOT_OF_THE_SCRIPT:
            with self.subTest(found, new=new):
                self.assertEqual(SIDE_BY_SIDE.count(old), 1, old)
                lines = journal.check(read_report(SIDE_BY_SIDE.replace(old, new)), its).split('\n')
                self.assertTrue(any(line.startswith(found) for line in lines), lines)

    def test_runs_side_by_side_have_nothing_odd_and_calls_out_of_order_are_odd(self):
        for seed in range(25):
            chance = random.Random(seed)
            its = asked.read_script(script.make(chance.choice([run_text, rebuild_text])(chance)))
            report = report_of(its, chance)
            self.assertEqual(journal.check(read_report(report), its), '', seed)
            lines = report.splitlines()
            words = [line.split(' ', 2) for line in lines]
            streams = {}
            for number, (place, _, rest) in enumerate(words):
                if place.isdigit() and rest[0].isdigit():
                    streams.setdefault(rest.split(' ')[0], []).append(number)
            one, other = chance.sample(chance.choice([calls for calls in streams.values() if len(calls) > 1]), 2)
            # Place and SAW stay where they are, and two calls of a stream change their places.
            lines[one], lines[other] = (' '.join([*words[here][:2], words[there][2]]) for here, there in ((one, other), (other, one)))
            self.assertNotEqual(journal.check(read_report('\n'.join(lines)), its), '', seed)

    def test_a_stream_that_is_given_up_is_found(self):
        for seed in range(10):
            chance = random.Random(seed)
            its = asked.read_script(script.make(chance.choice([run_text, rebuild_text])(chance)))
            for is_given_up in (lambda calls: calls[0].seq is None), (lambda calls: calls[0].seq is not None):
                given_up = [stream for stream, calls in enumerate(its.streams) if is_given_up(calls)]
                left = its._replace(streams=[[] if stream in given_up else calls for stream, calls in enumerate(its.streams)])
                lines = journal.check(read_report(report_of(left, chance)), its).splitlines()
                self.assertEqual(lines, ['the report has 0 of the %d calls of stream %d' % (len(its.streams[stream]), stream)
                                         for stream in given_up], seed)

    def test_a_script_is_read_as_its_calls(self):
        its = asked.read_script(script.make(SIDE_BY_SIDE_TEXT))
        self.assertEqual([[call.call for call in calls] for calls in its.streams],
                         [[('write', '0', '2', '61*2'), ('read', '0', '2')], [('write', '1', '1', '62*1'), ('read', '0', '2')]])
        made = script.make('volume v 2M\nstream commands\n  snapshot s\n  purge\nstream frames\n  ping seq 7\n  frame 9 0 0\n  close\n')
        spelled = made.replace(b'{"volume"', b'{ "more": null, "volume"')
        for given in (made, spelled):
            self.assertEqual(asked.read_script(given).streams,
                             [[(('snapshot', 's'), None, None), (('purge',), None, None)], [(('ping',), 7, 0), (('other', '9'), 2, 0)]])
        for given in (b'', b'{}\n', made[:-1], made + b'x', made[1:]):
            self.assertIsNone(asked.read_script(given))

    def test_a_purge_may_leave_a_layer_under_the_head_or_with_two_children(self):
        calls = 'snapshot a', 'snapshot b', 'revert a', 'snapshot c', 'remove a', 'remove c', 'purge'
        lines = ['%d %d 0 %d %s ok' % (place, place, place, call) for place, call in enumerate(calls)]
        self.assertEqual(find_odd(read_report('\n'.join([*lines, 'mode r0 RW', 'chain r0 head c* a*', 'head r0 ' + HEAD]))), [])

    def full_chain(self, last):
        """What is found in a journal in which a replica fails while there are 250 layers."""
        lines = ['%d %d 0 %d snapshot n%d ok' % (place, place, place, place) for place in range(249)]
        lines += ['249 mark failed r1', '250 249 0 249 fail r1 ok', *last, 'mode r0 RW', 'mode r1 ERR']
        lines += ['chain r0 head %s' % ' '.join('n%d' % place for place in range(248, -1, -1)), 'head r0 ' + HEAD]
        return journal.check(read_report('\n'.join(lines)))

    def test_no_rebuild_begins_where_there_are_250_layers(self):
        self.assertEqual(self.full_chain(['251 251 0 250 add r1 error chain full']), '')
        self.assertIn('line 252: is answered `error no replica`, and the journal makes it `error chain full`\n',
                      self.full_chain(['251 251 0 250 add r1 error no replica']))
        self.assertIn('line 252: makes a layer more, and there are 250 already\n',
                      self.full_chain(['251 mark added r1 r0 sys-249', '252 mark fault 0 r1 1', '253 mark aborted r1',
                                       '254 251 0 250 add r1 error aborted 253']))

    def test_layers_that_are_not_told_may_be_too_many(self):
        lines = ['open r0 RW', 'open r1 ERR unclean Dirty', '0 0 0 0 add r1 error %s', 'mode r0 RW', 'mode r1 ERR',
                 'chain r0 head', 'head r0 ' + HEAD]
        self.assertEqual(journal.check(read_report('\n'.join(lines) % 'chain full')), '')
        self.assertEqual(journal.check(read_report('\n'.join(lines) % 'in use')),
                         'line 3: is answered `error in use`, but no rebuild of r1 has begun\n')

    def test_replicas_that_differ_are_found(self):
        ends = 'mode r0 RW\nmode r1 RW\nchain r0 head\nchain r1 head%s\nhead r0 %s\nhead r1 %s\n'
        self.assertEqual(find_odd(read_report(ends % ('', HEAD, HEAD))), [])
        self.assertEqual(journal.check(read_report(ends % (' s', HEAD, HEAD))), 'line 4: gives r1 another chain than r0 has\n')
        self.assertEqual(journal.check(read_report(ends % ('', HEAD, OTHER_HEAD))), 'line 6: gives r1 another head than r0 has\n')

    def test_a_front_of_a_report_is_called_so_and_nothing_else(self):
        found = journal.check(read_report(''.join(ONE_STREAM.splitlines(True)[:7])))
        self.assertEqual(found, 'the report has no modes at its end: it is a prefix of a report\n')
        for count in range(1, 16):
            self.assertEqual(journal.check(read_report(''.join(ABORTED.splitlines(True)[:count]))), found, count)

    def test_a_missing_line_says_nothing_of_what_follows_from_it(self):
        found = journal.check(read_report(COMMANDS.replace('2 2 0 2 snapshot t ok\n', '')))
        self.assertEqual(found, 'line 3: has place 3, where 2 comes next\nline 3: is call 3 of stream 0, where call 2 comes next\n')

    def test_no_change_of_a_report_stops_the_tool(self):
        source = random.Random(11)
        for _ in range(150):
            lines = source.choice(GOOD).splitlines()
            for _ in range(source.randint(1, 3)):
                place, other = source.randrange(len(lines)), source.randrange(len(lines))
                words = lines[place].split(' ')
                words[source.randrange(len(words))] = source.choice(['0', '9', 'r1', 'r9', 'ok', 's', '-', 'added', 'mark', ''])
                lines[place] = source.choice([lines[other], ' '.join(words)])
            report = read_report('\n'.join(lines))
            journal.check(report)
            journal.table(report)
            picture.draw(report)


class Table(unittest.TestCase):
    def test_columns_stand_below_each_other(self):
        report = '''0 0 0 0 write 4095 40 61*1,62*1,63*1,64*1,65*1,66*1,67*1,68*1,00*32 ok
1 1 0 1 read 4094 4 ok 00*1,61*1,00*2
2 mark fault 0 r1 1
3 2 10 0 revert s error no such snapshot
'''
        self.assertEqual(journal.table(read_report(report)), '''place  saw  stream  call                           reply
    0    0       0  write 4095+40 61*1,62*1,63*1…  ok
    1    1       0  read 4094+4                    ok 00*1,61*1,00*2
    2               mark fault 0 r1 1
    3    2      10  revert s                       error no such snapshot
''')

    def test_the_marks_of_a_purge_stand_before_its_answer(self):
        self.assertIn('''
    5    5       0  status           ok layers 3 modes RW
    6               mark folded s t
    7    6       0  purge            ok
''', journal.table(read_report(COMMANDS)))

    def test_no_column_is_wide(self):
        long_ = '0 0 0 0 write -9223372036854775808 256 %s error out of range\n' % ','.join('%02x*1' % value for value in range(256))
        long_ += '1 1 0 1 backup %s %s ok\n2 2 0 2 status ok layers 2 modes %s\n' % ('b' * 64, 's' * 64, ','.join(['RW'] * 8))
        self.assertLess(max(map(len, journal.table(read_report(long_)).split('\n'))), 110)


class CommandLine(unittest.TestCase):
    def run_tool(self, *words, given=''):
        """The status and the output of the tool."""
        ended = subprocess.run([sys.executable, TOOL, *words], input=given, capture_output=True, text=True)
        return ended.returncode, ended.stdout

    def test_check_ends_with_1_where_something_is_odd(self):
        self.assertEqual(self.run_tool('check', given=ONE_STREAM), (0, ''))
        self.assertEqual(self.run_tool('check', given=''), (1, 'the report has no modes at its end: it is a prefix of a report\n'))

    def test_check_takes_the_script_that_was_run(self):
        with tempfile.TemporaryDirectory() as folder:
            path = os.path.join(folder, 'a.script')
            with open(path, 'wb') as file:
                file.write(script.make(SIDE_BY_SIDE_TEXT))
            self.assertEqual(self.run_tool('check', '--script', path, given=SIDE_BY_SIDE), (0, ''))
            wrong = SIDE_BY_SIDE.replace('fault 1 r1 1', 'fault 1 r1 2')
            self.assertEqual(self.run_tool('check', given=wrong), (0, ''))
            self.assertEqual(self.run_tool('check', '--script', path, given=wrong)[0], 1)
            with open(path, 'ab') as file:
                file.write(b'x')
            self.assertEqual(self.run_tool('check', '--script', path, given=SIDE_BY_SIDE), (1, ''))

    def test_table_and_picture_print(self):
        self.assertIn('write 4095+1', self.run_tool('table', given=ONE_STREAM)[1])
        self.assertTrue(self.run_tool('picture', '--most', '2', '-', given=ONE_STREAM)[1].startswith('<svg '))
        self.assertEqual(self.run_tool('table', 'no-such-file'), (1, ''))

    def test_help_tells_what_each_does(self):
        for words in (['--help'], ['check', '--help'], ['table', '--help'], ['picture', '--help']):
            status, output = self.run_tool(*words)
            self.assertEqual((status, 'standard input' in output or len(words) == 1), (0, True))


if __name__ == '__main__':
    unittest.main()
