"""The gases of the fuel and of the flue: what it takes to warm them (table A.1 and formula 4 of the standard), and what
burning makes (B.3, B.4, B.10, B.15), as document 01 and T-03 of document 02 say."""

from fractions import Fraction as F

from rounding import rounded_to

# Table A.1 in 0.001 kJ/(m3 degree), a row for every 100 degrees from 0 on: all rows up to 1,000
# degrees of what dry flue consists of, and as many as the fuel's temperature needs of the others.
GAS_HEAT = {
    'H2': (1275, 1287),
    'N2': (1296, 1300, 1301, 1304, 1317, 1325, 1338, 1354, 1367, 1379, 1392),
    'CO': (1300, 1301, 1308, 1317, 1329, 1342, 1359, 1372, 1388, 1400, 1413),
    'O2': (1304, 1317, 1333, 1354, 1375, 1396, 1414, 1434, 1450, 1463, 1476),
    'H2O': (1488, 1501),
    'CO2': (1597, 1697, 1793, 1877, 1923, 1998, 2052, 2098, 2140, 2178, 2215),
    'CH4': (1563, 1651), 'C2H4': (1869, 2103), 'C2H6': (2061, 2061), 'C3H8': (3043, 3959),
    'C4H10': (4122, 5250), 'H2S': (1530, 1559), 'SO2': (1777, 1860),
}


def gas_heat(name, temperature):
    """kJ/(m3 degree) of a gas, straight between the rows, at a temperature in tenths."""
    column = GAS_HEAT[name]
    row, over = divmod(temperature, 1_000)
    # At the last row's own temperature there is no row after it, and none is needed.
    slope = column[row + 1] - column[row] if over else 0
    return F(column[row] + slope * F(over, 1_000)) / 1_000


def mixed_heat(shares, temperature):
    """Formula 4: kJ/(m3 degree) of shares in 0.01 % at a temperature in tenths, not rounded."""
    return sum(F(share, 10_000) * gas_heat(name, temperature) for name, share in shares.items())


# Of CO, the pair and O2 together, in 0.01 %.
ANALYSED_MOST = 4_000


def analysed(stage):
    """Whether the stage's line is one of sheet 2, with what the analyser has read."""
    return 'pair' in stage


def read_by_analyser(stage):
    return {'CO': stage['CO'], 'CO2': stage['pair'], 'O2': stage['O2']}


def dry_flue_heat(stage):
    """kJ/(m3 degree) of a stage's dry flue: on sheet 2 that of its four gases, rounded to 0.001."""
    if not analysed(stage):
        return F('1.384')
    shares = read_by_analyser(stage)
    shares['N2'] = 10_000 - sum(shares.values())
    return rounded_to('0.001', mixed_heat(shares, stage['flue']))


# m and n of each CmHn.  CH4 isn't here because it has a term of its own.
HYDROCARBONS = {'C2H4': (2, 4), 'C2H6': (2, 6), 'C3H8': (3, 8), 'C4H10': (4, 10)}


def percent(gas):
    return {name: F(share, 100) for name, share in gas.items()}


def theoretical_air(gas):
    """(B.3), m3 per m3."""
    p = percent(gas)
    return (F('0.0238') * (p['CO'] + p['H2'])
            + F('0.0952') * p['CH4']
            + sum(F('0.0476') * (m + F(n, 4)) * p[name]
                  for name, (m, n) in HYDROCARBONS.items())
            + F('0.0714') * p['H2S']
            - F('0.0476') * p['O2'])


def dry_flue(gas, excess):
    """(B.10) with (B.4) put in, m3 per m3; the excess air is in thousandths."""
    p = percent(gas)
    burnt = (p['CO'] + p['CH4']
             + sum(m * p[name] for name, (m, n) in HYDROCARBONS.items())
             + p['N2'] + p['CO2'] + p['H2S'] + p['SO2'])
    return burnt / 100 + (F(excess, 1_000) - F('0.21')) * theoretical_air(gas)


def vapour(gas, excess, moisture):
    """(B.15), kg per m3, rounded to 1e-9 kg."""
    p = percent(gas)
    water = (p['H2'] + 2 * p['CH4']
             + sum(F(n, 2) * p[name] for name, (m, n) in HYDROCARBONS.items())
             + p['H2S'] + p['H2O'])
    carried = (F('1.293') * F(excess, 1_000) * theoretical_air(gas)
               * F(moisture, 10_000))
    return rounded_to('1e-9', carried + 18 / F('22.4') * water / 100)
