"""Source document 001: which file it is, its tables as scanned, and Table 1 as document 01 mends it.

Every figure is a whole number of units of its last printed place: 47.76 is 4776.
"""
import math
import sys
from fractions import Fraction
from pathlib import Path
from typing import NamedTuple

SOURCE = '001_287ac9b0f9a7d080.txt'
SHA256 = '5f83e7bf150e8c97df3b5383565edd674f3f91130ba9be06f43888e6053614ad'

ROOT = Path(__file__).resolve().parent.parent
TABLE1 = 'data/table1-scan.tsv'
TABLE5 = 'data/table5-scan.tsv'

KELVINS = range(200, 2001)
NODES = range(200, 2001, 20)
APART = 6887  # H - H15 in every row, in hundredths


class Mend(NamedTuple):
    """A broken row: what could stand there, the straight line, and what stands there now."""
    row: int
    candidates: list
    keeping: list
    line: Fraction
    new: int


class AirTable(NamedTuple):
    """Table 1: its columns as scanned and as mended, by name, and what was mended."""
    scanned: dict
    columns: dict
    heat_mends: list
    psi_mends: list


def columns(name, kelvins):
    """The columns of a transcript, by the names in its header."""
    header, *rows = [line.split('\t') for line in (ROOT / name).read_text('utf-8').splitlines()]
    figures = [[int(field.replace('.', '')) for field in row] for row in rows]
    if [row[0] for row in figures] != list(kelvins):
        sys.exit(f'{name}: a row is missing, doubled or out of order')
    return dict(zip(header, map(list, zip(*figures))))


def not_growing(column):
    """The rows that are not larger than the row before."""
    return [row for row in range(1, len(column)) if column[row] <= column[row - 1]]


def straight(column, below, above, row):
    """The straight line between two rows, at a row between them."""
    return column[below] + Fraction((row - below) * (column[above] - column[below]), above - below)


def mended(column, broken, candidates):
    """The column with its broken rows mended, and the mends. Of the candidates that keep the growth between the nearest sound
    rows on each side, the one nearer the straight line between these is taken; if none does, the line itself, rounded down."""
    new, mends = list(column), []
    sound = [row for row in range(len(column)) if row not in broken]
    for row in broken:
        below = max(other for other in sound if other < row)
        above = min(other for other in sound if other > row)
        line = straight(column, below, above, row)
        keeping = [each for each in candidates(row) if column[below] < each < column[above]]
        new[row] = min(keeping, key=lambda each: abs(each - line)) if keeping else math.floor(line)
        mends.append(Mend(row, candidates(row), keeping, line, new[row]))
    return new, mends


def air_table():
    """Table 1, mended. Cp has no rule and stays as printed."""
    scanned = columns(TABLE1, KELVINS)
    heat, heat15, psi = scanned['H'], scanned['H15'], scanned['psi']
    apart = [row for row in range(len(heat)) if heat[row] - heat15[row] != APART]
    new_heat, heat_mends = mended(
        heat, sorted({*apart, *not_growing(heat)}), lambda row: [heat[row], heat15[row] + APART])
    new_psi, psi_mends = mended(psi, not_growing(psi), lambda row: [])
    if not_growing(new_heat) or not_growing(new_psi):
        sys.exit(f'{TABLE1}: a mended column does not grow')
    new_heat15 = [figure - APART for figure in new_heat]
    mended_columns = {'H': new_heat, 'Cp': scanned['Cp'], 'psi': new_psi, 'H15': new_heat15}
    return AirTable(scanned, mended_columns, heat_mends, psi_mends)
