"""Judges and works the firing sheet of a gas-fired shuttle kiln as document 01 says,
with what document 02 has changed since (T-01 to T-04).

It is written to be held against that document, so every figure stands here in
the document's own units and every value is an exact fraction until the document
rounds it.  It shares nothing with the library that it is compared with.
"""

import re
import sys
from fractions import Fraction as F
from math import isqrt

from gases import (ANALYSED_MOST, analysed, dry_flue, dry_flue_heat, mixed_heat, read_by_analyser,
                   theoretical_air, vapour)
from rounding import joules_of, rounded, rounded_to, tenths

# --- The firing and its sheet -------------------------------------------------

LONGEST = 16_384

TEMPERATURE = (-200, 18_000)        # 0.1 degree
FLUE = (0, 12_000)                  # 0.1 degree
NEAR = (-200, 500)                  # 0.1 degree
MASS = (0, 1_000_000)               # 0.1 kg
MATERIAL = (0, 18)
C = (0, 100_000)                    # 0.0001 kJ/(kg degree)
SHARE = (0, 10_000)                 # 0.01 %
# A wall line names a section and so has the range of a section number.
SECTION = (1, 999)

GAS, EXCESS, CO, MINUTES = (0, 200_000), (1_000, 5_000), (0, 1_000), (1, 2_880)

# The fields of every line of sheet 1.
SHEET_1 = {
    'sheet': {'edition': (1, 2)},
    'firing': {'number': (1, 999_999_999)},
    'product': {'mass': (1_000, 1_000_000)},
    'ambient': {'t': NEAR},
    'fuel': {'heating': (3_000, 130_000), 'temperature': (0, 600)},
    'gas': {name: SHARE for name in (
        'H2', 'N2', 'CO', 'O2', 'H2O', 'CO2', 'CH4',
        'C2H4', 'C2H6', 'C3H8', 'C4H10', 'H2S', 'SO2')},
    'air': {'moisture': (0, 500)},
    'ware': {'mass': MASS, 'in': TEMPERATURE, 'highest': TEMPERATURE,
             'material': MATERIAL, 'c': C},
    'water': {'adsorbed': MASS, 'crystal': MASS, 'flue': FLUE},
    'clay': {'mass': MASS},
    'stages': {'count': (1, 12)},
    'stage': {'gas': GAS, 'excess': EXCESS, 'flue': FLUE, 'CO': CO, 'minutes': MINUTES},
    'setters': {'count': (0, 32)},
    'setter': {'mass': MASS, 'in': TEMPERATURE, 'material': MATERIAL, 'c': C},
    'parts': {'count': (0, 32)},
    'part': {'mass': MASS, 'material': MATERIAL, 'c': C,
             'before': TEMPERATURE, 'firing': TEMPERATURE},
    'sections': {'count': (1, 12)},
    'section': {'number': SECTION, 'place': (1, 3), 'area': (1, 20_000)},
    'walls': {'count': (0, 48)},
    'wall': {'section': SECTION, 'stage': (1, 12),
             'surface': (-200, 3_000), 'air': NEAR},
    'end': {'edition': (1, 1)},
}

# On sheet 2 a stage has what the analyser read, CO2 with SO2 as a pair, and is no hotter than table A.1.
ANALYSED_STAGE = {'gas': GAS, 'excess': EXCESS, 'flue': (0, 10_000), 'CO': CO,
                  'pair': (0, 2_500), 'O2': (0, 2_100), 'minutes': MINUTES}

# The fields of every line by edition.
LINES = {1: SHEET_1, 2: SHEET_1 | {'stage': ANALYSED_STAGE}}

# The lines of a block follow the line that counts them.
BLOCKS = {'stages': 'stage', 'setters': 'setter', 'parts': 'part',
          'sections': 'section', 'walls': 'wall'}

ORDER = [key for key in SHEET_1 if key not in BLOCKS.values()]

TOTAL_GAS = (100, 200_000)          # 0.1 m3

# Nine digits at most, so ten digits are a fault of form and never of range.
NUMBER = re.compile(rb'0|-?[1-9][0-9]{0,8}')

# What a sheet can be refused for.  11 is for the room that a caller lends.
REFUSALS = [*range(1, 11), 12, 13, 14]


# --- What the clerk hears -----------------------------------------------------

def read(data):
    """('refused', number, line, field), or ('good', sheet)."""
    if len(data) > LONGEST:
        return 'refused', 1, 0, 0
    sheet = {key: [] for key in BLOCKS.values()}
    due = list(ORDER)
    # Every edition has the same first line, which says what the others are.
    forms = SHEET_1
    line = 0
    rest = data
    while due:
        key = due.pop(0)
        line += 1
        # At the end of the bytes the text is empty and lacks its LF, so a sheet
        # that stops early is refused at the first line that is not there.
        text, lf, rest = rest.partition(b'\n')
        number, field, fields = read_line(key, forms[key], text) if lf else (13, 0, None)
        if not number:
            number, field = broken_rule(sheet, key, fields)
        if number:
            return 'refused', number, line, field
        if key in BLOCKS.values():
            sheet[key].append(fields)
        else:
            sheet[key] = fields
        if key == 'sheet':
            forms = LINES[fields['edition']]
        if key in BLOCKS:
            due[:0] = [BLOCKS[key]] * fields['count']
    if rest:
        return 'refused', 13, line + 1, 0
    # Here the document puts 10 before 8.
    if not within(total_gas(sheet), TOTAL_GAS):
        return 'refused', 10, 0, 0
    if not all(reading(sheet, section['number'], stage)
               for section in sheet['section']
               for stage in range(1, len(sheet['stage']) + 1)):
        return 'refused', 8, 0, 0
    return 'good', sheet


def read_line(key, form, text):
    """Refusal 2, 12 or 3 with its field, or 0, 0; and the line's fields by name, where they are numbers."""
    found, equals, value = text.partition(b'=')
    values = value.split(b',')
    if found != key.encode() or not equals or len(values) != len(form):
        return 2, 0, None
    field = leftmost(not NUMBER.fullmatch(v) for v in values)
    if field:
        return 12, field, None
    fields = dict(zip(form, map(int, values)))
    field = leftmost(not within(fields[name], limits) for name, limits in form.items())
    return 3 if field else 0, field, fields


def leftmost(faults):
    """The first of the fields that is at fault, counted from 1, or 0."""
    return next((place for place, fault in enumerate(faults, 1) if fault), 0)


def within(value, limits):
    return limits[0] <= value <= limits[1]


def broken_rule(sheet, key, fields):
    """The least of refusals 4, 5, 6, 7, 9 and 14 that this line earns, or 0; and its field, which only 4 has."""
    if key in ('ware', 'setter', 'part'):
        # A material of the table brings its own c, so exactly one is given.
        if (fields['material'] == 0) == (fields['c'] == 0):
            return 4, leftmost(name == 'material' for name in fields)
    if key == 'gas':
        if sum(fields.values()) != 10_000 or theoretical_air(fields) <= 0:
            return 5, 0
    if key == 'stage' and analysed(fields):
        if sum(read_by_analyser(fields).values()) > ANALYSED_MOST:
            return 14, 0
    if key == 'section':
        if any(s['number'] == fields['number'] for s in sheet['section']):
            return 6, 0
    if key == 'wall':
        if all(s['number'] != fields['section'] for s in sheet['section']):
            return 6, 0
        if fields['stage'] > len(sheet['stage']):
            return 6, 0
        if reading(sheet, fields['section'], fields['stage']):
            return 7, 0
        if fields['surface'] < fields['air']:
            return 9, 0
    return 0, 0


def reading(sheet, section, stage):
    return any(w['section'] == section and w['stage'] == stage for w in sheet['wall'])


def total_gas(sheet):
    return sum(stage['gas'] for stage in sheet['stage'])


# --- From reading to joules ---------------------------------------------------

# Table A.2: c = a + b T, and for two materials another line above 800.0 degrees.
SPECIFIC_HEAT = {
    1: ('0.84', '2.6e-4'),
    2: ('0.84', '2.6e-4'),
    3: ('0.42', '8.8e-4'),
    4: ('0.67', '1.67e-4'),
    5: ('0.67', '1.26e-4'),
    6: ('0.8', '3.3e-4'),
    7: ('0.94', '2.5e-4'),
    8: ('0.75', '1.5e-4'),
    9: ('0.77', '3e-4'),
    10: ('0.89', '4.2e-4'),
    11: ('0.63', '1.26e-4'),
    12: ('0.73', '3.76e-4'),
    13: ('0.96', '1.5e-4'),
    14: ('0.8', '3.34e-4'),
    15: ('0.84', '2.6e-4'),
    16: ('0.8', '2.93e-4'),
    17: ('0.89', '0'),
    18: ('0.46', '0'),
}
ABOVE_800 = {3: ('0.8', '4.18e-4'), 12: ('0.9', '1.67e-4')}


def specific_heat(record, at):
    """kJ/(kg degree) of a ware, setter or part at a temperature in tenths."""
    material = record['material']
    if material == 0:
        return F(record['c'], 10_000)
    a, b = SPECIFIC_HEAT[material]
    if at > 8_000 and material in ABOVE_800:
        a, b = ABOVE_800[material]
    return F(a) + F(b) * tenths(at)


def sensible(mass, record, first, second):
    """m c (first - second) in joules; c is taken at the temperature that stands first."""
    return joules_of(tenths(mass) * specific_heat(record, first) * tenths(first - second))


A = {1: F('3.26'), 2: F('2.56'), 3: F('2.10')}


def root(value):
    """The square root, cut down to 1e-8."""
    return isqrt(int(value * 10 ** 16)) * F('1e-8')


def convection(place, surface, air):
    """The first flux term, with the fourth root in it, rounded to 1e-5 W/m2."""
    delta = tenths(surface - air)
    return rounded_to('1e-5', A[place] * delta * root(root(delta)))


def radiation(surface, air):
    """The second flux term, rounded to 1e-5 W/m2."""
    hot = (273 + tenths(surface)) / 100
    cold = (273 + tenths(air)) / 100
    return rounded_to('1e-5', F('4.54') * (hot ** 4 - cold ** 4))


NAMES = ('q1 q2 q3 q5 q8 in x1 x2 x3 x5 x7 x8 x9 x10 x11 useful withset').split()


def joules(sheet):
    """Every heat of the whole firing in whole joules."""
    t = sheet['ambient']['t']
    gas, fuel, ware, water = sheet['gas'], sheet['fuel'], sheet['ware'], sheet['water']
    product = sheet['product']['mass']
    setters, parts, stages = sheet['setter'], sheet['part'], sheet['stage']
    all_gas = tenths(total_gas(sheet))

    j = {}
    j['q1'] = joules_of(all_gas * fuel['heating'])
    # All gas together, so q2 is rounded only once.
    j['q2'] = joules_of(all_gas * mixed_heat(gas, fuel['temperature'])
                        * tenths(fuel['temperature'] - t))
    j['q3'] = sum(sensible(s['mass'], s, s['in'], t) for s in setters)
    j['q5'] = sensible(ware['mass'], ware, ware['in'], t)
    j['q8'] = sum(sensible(p['mass'], p, p['before'], t) for p in parts)
    j['in'] = j['q1'] + j['q2'] + j['q3'] + j['q5'] + j['q8']

    # The fired ware is heated here, so the mass is the product's and not the green one.
    j['x1'] = sensible(product, ware, ware['highest'], ware['in'])
    j['x2'] = joules_of(tenths(water['adsorbed'] + water['crystal'])
                        * (2490 + F('1.93') * tenths(water['flue'] - t)))
    j['x3'] = joules_of(tenths(sheet['clay']['mass']) * 1088)
    j['x5'] = sum(sensible(s['mass'], s, ware['highest'], s['in']) for s in setters)

    j['x7'] = j['x8'] = 0
    for stage in stages:
        volume = rounded_to('1e-5', tenths(stage['gas']) * dry_flue(gas, stage['excess']))
        steam = rounded_to('1e-6', tenths(stage['gas'])
                           * vapour(gas, stage['excess'], sheet['air']['moisture']))
        above = tenths(stage['flue'] - t)
        j['x7'] += joules_of(volume * dry_flue_heat(stage) * above)
        j['x7'] += joules_of(steam * F('1.93') * above)
        j['x8'] += joules_of(volume * F(stage['CO'], 10_000) * 12750)

    j['x9'] = 0
    section_by_number = {s['number']: s for s in sheet['section']}
    for wall in sheet['wall']:
        section = section_by_number[wall['section']]
        flux = (convection(section['place'], wall['surface'], wall['air'])
                + radiation(wall['surface'], wall['air']))
        hours = F(stages[wall['stage'] - 1]['minutes'], 60)
        j['x9'] += joules_of(F('3.6') * flux * F(section['area'], 100) * hours)

    j['x10'] = sum(sensible(p['mass'], p, p['firing'], t) for p in parts)
    j['x11'] = j['in'] - sum(j[x] for x in 'x1 x2 x3 x5 x7 x8 x9 x10'.split())

    # (33) is another bill for the same water than (14), which x2 takes.
    warming = (100 - tenths(ware['in'])) * F('4.18') + 2260
    water_heat = joules_of(tenths(water['adsorbed']) * (warming + 25 * F('1.93'))
                           + tenths(water['crystal']) * (warming + 450 * F('1.93')))
    j['useful'] = water_heat + j['x3'] + j['x1']
    j['withset'] = j['useful'] + j['x5']
    return j


# --- A whole firing -----------------------------------------------------------

def report(sheet):
    """The report, each heat in kJ per tonne, from the joules and never from print."""
    j = joules(sheet)
    product = tenths(sheet['product']['mass'])
    lines = ['firing=%d' % sheet['firing']['number']]
    lines += ['%s=%d' % (name, rounded(j[name] / product)) for name in NAMES]
    lines += ['eff1=%d' % rounded(F(10_000 * j['useful'], j['q1'])),
              'eff2=%d' % rounded(F(10_000 * j['withset'], j['q1']))]
    return ''.join(line + '\n' for line in lines)


def joules_text(sheet):
    j = joules(sheet)
    return ''.join('%s=%d\n' % (name, j[name]) for name in NAMES)


def answer(data, text_of):
    """What a program prints for the sheet, where `text_of` words the accepted ones."""
    verdict = read(data)
    if verdict[0] == 'refused':
        return 'refused=%d,%d,%d\n' % verdict[1:]
    return text_of(verdict[1])


if __name__ == '__main__':
    words = {'joules': joules_text, 'report': report}
    if len(sys.argv) != 2 or sys.argv[1] not in words:
        sys.exit('usage: kiln.py joules|report < sheet')
    sys.stdout.write(answer(sys.stdin.buffer.read(), words[sys.argv[1]]))
