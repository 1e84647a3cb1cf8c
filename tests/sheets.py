"""Document 01's own sheets: its worked example, its edges, those places that can be
read in two ways, and what document 02 tells apart, each with its answer.
They are quotations; all other sheets are made by compare/sheets.

    sheets.py FOLDER    writes a sheet for each refusal there, with its answer
"""

import pathlib
import sys

from kiln import LONGEST, REFUSALS

# Document 01, "A whole firing": the sheet, and the report that it prints, with x9 and
# x11 as T-02 of document 02 has changed them.
EXAMPLE = b"""\
sheet=1
firing=7
product=10000
ambient=200
fuel=35000,200
gas=0,0,0,0,0,0,10000,0,0,0,0,0,0
air=0
ware=11000,200,12200,0,10000
water=500,500,2200
clay=5000
stages=1
stage=2000,1100,8200,0,600
setters=1
setter=5000,200,0,10000
parts=1
part=20000,1,0,200,6200
sections=1
section=3,2,1000
walls=1
wall=3,1,560,200
end=1
"""

EXAMPLE_REPORT = """\
firing=7
q1=7000000
q2=0
q3=0
q5=0
q8=0
in=7000000
x1=1200000
x2=287600
x3=544000
x5=600000
x7=2593943
x8=0
x9=152300
x10=1201440
x11=420717
useful=2049278
withset=2649278
eff1=2928
eff2=3785
"""


def changed(*pairs, data=EXAMPLE):
    """The worked example, or this sheet, with some of its text exchanged."""
    for old, new in pairs:
        # A text that isn't there exactly once would leave the example as it was.
        assert data.count(old) == 1, old
        data = data.replace(old, new)
    return data


# T-03 of document 02: the same firing on sheet 2, whose stage has what the analyser read.
ANALYSIS = b'0,1050,190,600'
ANALYSED_STAGE = b'stage=2000,1100,8200,' + ANALYSIS
ANALYSED = changed((b'sheet=1', b'sheet=2'), (b'stage=2000,1100,8200,0,600', ANALYSED_STAGE))
ANALYSED_REPORT = EXAMPLE_REPORT.replace('x7=2593943', 'x7=2698522').replace('x11=420717', 'x11=316137')

ACCEPTED = (0, 0, 0)
WALL = b'wall=3,1,560,200\n'


def edges():
    """(name, sheet, (number, line, field)) for the edges that document 01 lists itself."""
    return [
        ('the worked example', EXAMPLE, ACCEPTED),
        ('product 1,000', changed((b'product=10000', b'product=1000')), ACCEPTED),
        ('product 999', changed((b'product=10000', b'product=999')), (3, 3, 1)),
        ('total gas 100', changed((b'stage=2000', b'stage=100')), ACCEPTED),
        ('total gas 99', changed((b'stage=2000', b'stage=99')), (10, 0, 0)),
        ('shares of 9,999', changed((b'0,10000,0', b'0,9999,0')), (5, 6, 0)),
        ('no wall line', changed((b'walls=1\n' + WALL, b'walls=0\n')), (8, 0, 0)),
        ('wall line twice', changed((b'walls=1\n', b'walls=2\n' + WALL)), (7, 21, 0)),
        ('section 4 in section only', changed((b'section=3', b'section=4')), (6, 20, 0)),
        ('surface 199 against 200', changed((b'560,200', b'199,200')), (9, 20, 0)),
        ('surface equal', changed((b'560,200', b'200,200')), ACCEPTED),
        ('empty sheet', b'', (13, 1, 0)),
        ('16,385 bytes', EXAMPLE.ljust(LONGEST + 1, b'\n'), (1, 0, 0)),
        ('16,384 bytes', EXAMPLE.ljust(LONGEST, b'\n'), (13, 22, 0)),
        ('a byte after end', EXAMPLE + b'x', (13, 22, 0)),
        ('end without LF', EXAMPLE[:-1], (13, 21, 0)),
        ('sheet 0', changed((b'sheet=1', b'sheet=0')), (3, 1, 1)),
        ('end 2', changed((b'end=1', b'end=2')), (3, 21, 1)),
        ('material 0 without c', changed((b'12200,0,10000', b'12200,0,0')), (4, 8, 4)),
        ('material 1 with c', changed((b'12200,0,10000', b'12200,1,1')), (4, 8, 4)),
        ('material 18 with c', changed((b'200,0,10000\np', b'200,18,1\np')), (4, 14, 3)),
        ('no theoretical air', changed((b'0,10000,0', b'0,0,0'), (b'gas=0,0', b'gas=0,10000')), (5, 6, 0)),
        ('ends after an LF', EXAMPLE[:EXAMPLE.index(b'air')], (13, 7, 0)),
        ('ends in a line', EXAMPLE[:EXAMPLE.index(b'air') + 3], (13, 7, 0)),
        ('gas 99 and no wall line',
         changed((b'stage=2000', b'stage=99'), (b'walls=1\n' + WALL, b'walls=0\n')), (10, 0, 0)),
    ]


def doubtful():
    """The like for places where document 01 can be read in two ways, as we read them."""
    second = WALL + WALL
    return [
        ('one wall line too many', changed((WALL, second)), (2, 21, 0)),
        ('one wall line too few', changed((b'walls=1', b'walls=2')), (2, 21, 0)),
        ('stages 0', changed((b'stages=1', b'stages=0')), (3, 11, 1)),
        ('stages 13', changed((b'stages=1', b'stages=13')), (3, 11, 1)),
        ('ten digits', changed((b'firing=7', b'firing=1000000000')), (12, 2, 1)),
        ('nine digits', changed((b'firing=7', b'firing=999999999')), ACCEPTED),
        ('negative mass', changed((b'clay=5000', b'clay=-1')), (3, 10, 1)),
        ('minus nought', changed((b'air=0', b'air=-0')), (12, 7, 1)),
        ('sheet -1', changed((b'sheet=1', b'sheet=-1')), (3, 1, 1)),
        ('sheet 01', changed((b'sheet=1', b'sheet=01')), (12, 1, 1)),
        ('no value', changed((b'clay=5000', b'clay=')), (12, 10, 1)),
        ('no sign of equality', changed((b'clay=5000', b'clay')), (2, 10, 0)),
        ('CR LF', EXAMPLE.replace(b'\n', b'\r\n'), (12, 1, 1)),
        ('CR alone', EXAMPLE.replace(b'\n', b'\r'), (13, 1, 0)),
        ('LF after end', EXAMPLE + b'\n', (13, 22, 0)),
        ('end 2 and a byte', changed((b'end=1', b'end=2')) + b'x', (3, 21, 1)),
        ('a byte after end, gas 99', changed((b'stage=2000', b'stage=99')) + b'x', (13, 22, 0)),
        ('range fault without LF', b'sheet=9', (13, 1, 0)),
        ('wall at section 0', changed((b'wall=3', b'wall=0')), (3, 20, 1)),
        ('wall at section 1000', changed((b'wall=3', b'wall=1000')), (3, 20, 1)),
        ('wall at section 999', changed((b'wall=3', b'wall=999')), (6, 20, 0)),
        ('wall at stage 13', changed((b'wall=3,1', b'wall=3,13')), (3, 20, 2)),
        ('wall at stage 12', changed((b'wall=3,1', b'wall=3,12')), (6, 20, 0)),
        ('wall at stage 2', changed((b'wall=3,1', b'wall=3,2')), (6, 20, 0)),
        ('a setter of no mass, without c', changed((b'setter=5000,200,0,10000', b'setter=0,200,0,0')), (4, 14, 3)),
        ('a part of no mass, with two', changed((b'part=20000,1,0', b'part=0,1,1')), (4, 16, 2)),
        ('material 19', changed((b'200,0,10000\np', b'200,19,0\np')), (3, 14, 3)),
        ('a share of 10,001', changed((b'0,10000,0', b'0,10001,0')), (3, 6, 7)),
        ('form after range', changed((b'35000,200', b'2999,0200')), (12, 5, 2)),
        ('9 before a later 7',
         changed((b'walls=1\n' + WALL, b'walls=2\nwall=3,1,199,200\n' + WALL)), (9, 20, 0)),
        ('7 before 9 in a line',
         changed((b'walls=1\n' + WALL, b'walls=2\n' + WALL + b'wall=3,1,199,200\n')), (7, 21, 0)),
        ('6 before 9 in a line', changed((WALL, b'wall=4,1,199,200\n')), (6, 20, 0)),
        ('section twice, area 0',
         changed((b'sections=1\n', b'sections=2\nsection=3,1,7\n'), (b'section=3,2,1000', b'section=3,2,0')),
         (3, 19, 3)),
        ('section twice', changed((b'sections=1\n', b'sections=2\nsection=3,1,7\n')), (6, 19, 0)),
        ('highest below in', changed((b'200,12200', b'12200,200')), ACCEPTED),
        ('nothing but product and gas',
         changed((b'ware=11000', b'ware=0'), (b'=500,500', b'=0,0'), (b'clay=5000', b'clay=0'),
                 (b'setter=5000', b'setter=0'), (b'part=20000', b'part=0')), ACCEPTED),
    ]


def boxes():
    """The like for T-01 of document 02: its refusals 2, 12 and 13, their order in a line, and the field."""
    return [
        ('a letter in a number', changed((b'35000,200', b'35000,2O0')), (12, 5, 2)),
        ('an excess too small, a flue too hot', changed((b'stage=2000,1100', b'stage=2000,900'), (b'8200,0', b'13000,0')), (3, 12, 2)),
        ('an excess too small, an empty field', changed((b'stage=2000,1100', b'stage=2000,900'), (b'8200,0', b'8200,')), (12, 12, 4)),
        ('a comma in a mass', changed((b'clay=5000', b'clay=5,000')), (2, 10, 0)),
        ('another key', changed((b'clay=5000', b'Clay=5000')), (2, 10, 0)),
        ('another key and no LF', EXAMPLE[:EXAMPLE.index(b'clay')] + b'Clay=5000', (13, 10, 0)),
        ('a field too few and no LF', EXAMPLE[:EXAMPLE.index(b',500,2200')], (13, 9, 0)),
        ('another key and a letter', changed((b'clay=5000', b'Clay=5O00')), (2, 10, 0)),
        ('a field too many and a letter', changed((b'clay=5000', b'clay=5,O00')), (2, 10, 0)),
        ('two letters', changed((b'wall=3,1,560,200', b'wall=3,1,56O,2O0')), (12, 20, 3)),
        ('two beyond their ranges', changed((b'wall=3,1,560,200', b'wall=3,13,560,501')), (3, 20, 2)),
        ('a range left of a form', changed((b'wall=3,1,560,200', b'wall=1000,1,560,+200')), (12, 20, 4)),
        ('a form left of a range', changed((b'wall=3,1,560,200', b'wall=3,01,560,501')), (12, 20, 2)),
        ('the 13th share', changed((b'0,0,0\nair', b'0,0,10001\nair')), (3, 6, 13)),
        ('a material and a c beyond', changed((b'part=20000,1,0', b'part=20000,19,100001')), (3, 16, 2)),
        ('a second sign of equality', changed((b'clay=5000', b'clay==5000')), (12, 10, 1)),
        ('two lines in one', changed((b'5000\nstages', b'5000stages')), (12, 10, 1)),
        ('two lines in one, the second of five fields', changed((b'1\nstage=', b'1stage=')), (2, 11, 0)),
        ('an empty line', changed((b'clay=5000', b'')), (2, 10, 0)),
    ]


def halves():
    """(name, sheet, lines of its report) for T-04 of document 02: figures at a half, which go to the even digit."""
    part = b'part=20000,1,0,200'
    return [('no crystal water', changed((b'=500,500', b'=500,0')), 'useful=1876132 withset=2476132')] + [
        # 10 kg that take up 0.05 kJ/(kg degree), 0.5 kJ for each degree that they are warmer than the room or colder
        ('%s kJ in the kiln' % kilojoules, changed((part, b'part=100,0,500,%d' % (200 + 20 * kilojoules))), 'q8=%d' % due)
        for kilojoules, due in ((-3.5, -4), (-2.5, -2), (-1.5, -2), (-0.5, 0), (0.5, 0), (1.5, 2), (2.5, 2), (3.5, 4))]


def editions():
    """The like for T-03 of document 02: sheet 2's own ranges and its refusal 14, and the two sheets' lines exchanged."""
    def read(analysis):
        return changed((ANALYSIS, analysis), data=ANALYSED)

    def flue(tenths):
        return changed((b'8200,0,', tenths + b',0,'), data=ANALYSED)

    return [
        ('sheet 3', changed((b'sheet=2', b'sheet=3'), data=ANALYSED), (3, 1, 1)),
        ('sheet 0 with an analysis', changed((b'sheet=2', b'sheet=0'), data=ANALYSED), (3, 1, 1)),
        ('sheet 2 with the stage of sheet 1', changed((b'sheet=1', b'sheet=2')), (2, 12, 0)),
        ('sheet 1 with the stage of sheet 2', changed((b'sheet=2', b'sheet=1'), data=ANALYSED), (2, 12, 0)),
        ('all three 4,000', read(b'0,2000,2000,600'), ACCEPTED),
        ('all three 4,001', read(b'0,2000,2001,600'), (14, 12, 0)),
        ('all three 4,001 with CO', read(b'1000,1500,1501,600'), (14, 12, 0)),
        ('a pair of 2,500', read(b'0,2500,1500,600'), ACCEPTED),
        ('a pair of 2,501', read(b'0,2501,0,600'), (3, 12, 5)),
        ('a pair below nothing', read(b'0,-1,0,600'), (3, 12, 5)),
        ('O2 of 2,100', read(b'0,0,2100,600'), ACCEPTED),
        ('O2 of 2,101', read(b'0,0,2101,600'), (3, 12, 6)),
        ('CO of 1,001', read(b'1001,0,0,600'), (3, 12, 4)),
        ('no minutes and too much of all three', read(b'1000,2500,2100,0'), (3, 12, 7)),
        ('too much of all three', read(b'1000,2500,2100,600'), (14, 12, 0)),
        ('2,880 minutes', read(b'0,1050,190,2880'), ACCEPTED),
        ('2,881 minutes', read(b'0,1050,190,2881'), (3, 12, 7)),
        ('an empty O2', read(b'0,1050,,600'), (12, 12, 6)),
        ('a letter, and too much of all three', read(b'1000,25OO,2100,0'), (12, 12, 5)),
        ('six fields', read(b'0,1050,600'), (2, 12, 0)),
        ('eight fields', read(b'0,1050,190,0,600'), (2, 12, 0)),
        ('a stage with an analysis and no LF', ANALYSED[:ANALYSED.index(b'\nsetters')], (13, 12, 0)),
        ('flue 10,000', flue(b'10000'), ACCEPTED),
        ('flue 10,001', flue(b'10001'), (3, 12, 3)),
        ('flue 0', flue(b'0'), ACCEPTED),
        ('flue 12,000 on sheet 1', changed((b'8200,0', b'12000,0')), ACCEPTED),
        ('flue for the water 12,000 on sheet 2', changed((b'500,2200', b'500,12000'), data=ANALYSED), ACCEPTED),
        ('flue for the water 12,001 on sheet 2', changed((b'500,2200', b'500,12001'), data=ANALYSED), (3, 9, 3)),
        ('gas 99 on sheet 2', changed((b'stage=2000', b'stage=99'), data=ANALYSED), (10, 0, 0)),
    ]


def reports():
    """(name, sheet, lines of its report) for what document 02 has changed."""
    return [('the worked example on sheet 2', ANALYSED, ANALYSED_REPORT), *halves()]


def known():
    """Every sheet here, with its refusal."""
    return edges() + doubtful() + boxes() + editions() + [(name, data, ACCEPTED) for name, data, _ in reports()]


def write_refused(folder):
    """refused-N.sheet and refused-N.report for every refusal that a sheet can earn."""
    first = {}
    for _, data, due in edges() + boxes() + editions():
        first.setdefault(due[0], (data, due))
    for number in REFUSALS:
        data, due = first[number]
        (folder / ('refused-%d.sheet' % number)).write_bytes(data)
        (folder / ('refused-%d.report' % number)).write_text('refused=%d,%d,%d\n' % due)


if __name__ == '__main__':
    if len(sys.argv) != 2:
        sys.exit('usage: sheets.py FOLDER')
    write_refused(pathlib.Path(sys.argv[1]))
