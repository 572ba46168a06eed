#!/usr/bin/env python3
"""The text that crates/checked_examples must print. What passes is worked out from the papers alone: 01, S-1 to S-3 and S-5 to S-10 of 02, and Tables 3 and 4 of source
document 001. Exact fractions, exponentials to a hundred digits, Python's own calendar.

    python3 tests/worked_examples.py > /tmp/worked_examples && cmp /tmp/worked_examples crates/checked_examples/stdout

Where the rules leave a number open, this prints one that passes. Of two raw weights it is always the lower, the exact value rounded up; a stored text with the other
would differ. Where two numbers pass as the seventh word, or as the low number of a raw weight, it is the one that the stored text has, which is so held to be one of
the two; where that has neither, it is the higher, the exact value rounded down. Nothing else is taken from the stored text.

It fails where a figure of the rating tables is missing from the examples' weights, where a case of one, two or three ratings, of dates, of the IRB section, of
SEC-IRBA, of the seventh word, of totals by portfolio (S-7), of inferred ratings (S-8), of the unit of risk weights, of the converter (S-9) or of amendments (S-10)
is met by no example, where no line of the examples depends on a coefficient of SEC-IRBA, where a misreading of S-8, S-9 or S-10 gives every example the answers that
it has, where a weight published in source document 004 is not enclosed, where a deal in dates or in hundredths has other lines than the same deal in months or in
percent, where a conversion breaks a law of S-9, where the totals by portfolio are not those of the pool, or where the sums after an amendment are not those before it
with the old row's part taken away and the new row's added. It needs Python's standard library and is no part of the gate.
"""
import os
import sys
from collections import namedtuple
from contextlib import suppress
from datetime import date, timedelta
from decimal import Decimal, getcontext
from fractions import Fraction
from functools import partial
from itertools import permutations, product
from math import ceil, floor

getcontext().prec = 100
getcontext().Emin = -999999999

MILLION = 10**6
TOP = 125_000
FALLBACK, ERBA, SA, IRBA = 0, 1, 2, 3

# Four facts, and a fifth to a seventh that may be left out; "Pool, count 1 to 1,000", "Tranches, count 1 to 32"; the words of a pool row, of a tranche, of the IRB
# section and of a line.
FACTS_LEAST, FACTS_MOST, ROWS, TRANCHES = 4, 7, 1000, 32
ROW_SIZE, TRANCHE_SIZE, IRB_SIZE, LINE_SIZE = 4, 7, 6, 7
# The words of the longest sheet, four counts, facts, rows, tranches and the IRB section, 4,241 in all; eight bytes each make 33,928.
MOST_WORDS = 4 + FACTS_MOST + ROW_SIZE * ROWS + TRANCHE_SIZE * TRANCHES + IRB_SIZE
MOST_BYTES = 8 * MOST_WORDS

# The place of the sixth fact, the reporting date; the years of a date; the most months of a maturity.
REPORTING_AT, YEARS, MONTHS_MOST = 6, range(2000, 2200), 1200

# The place of the seventh fact, the unit of the risk weight words: by its codes the highest word, and what a word is in hundredths of a percent.
UNIT_AT = 7
Unit = namedtuple("Unit", "most hundredths")
UNITS = PERCENT, HUNDREDTHS = Unit(1250, lambda word: 100 * word), Unit(125_000, lambda word: word)

# Senior 1 year, senior 5 years, non-senior 1 year, non-senior 5 years, in percent; one figure for a short-term grade.
ORDINARY = {
    1: (15, 20, 15, 70), 2: (15, 30, 15, 90), 3: (25, 40, 30, 120), 4: (30, 45, 40, 140), 5: (40, 50, 60, 160), 6: (50, 65, 80, 180),
    7: (60, 70, 120, 210), 8: (75, 90, 170, 260), 9: (90, 105, 220, 310), 10: (120, 140, 330, 420), 11: (140, 160, 470, 580),
    12: (160, 180, 620, 760), 13: (200, 225, 750, 860), 14: (250, 280, 900, 950), 15: (310, 340, 1050, 1050), 16: (380, 420, 1130, 1130),
    17: (460, 505, 1250, 1250), 18: (1250, 1250, 1250, 1250), 21: (15,), 22: (50,), 23: (100,), 24: (1250,),
}

# The same of an STC deal: Table 4 of source document 001, and Table 3 for the short-term grades.
STC = {
    1: (10, 10, 15, 40), 2: (10, 15, 15, 55), 3: (15, 20, 15, 70), 4: (15, 25, 25, 80), 5: (20, 30, 35, 95), 6: (30, 40, 60, 135),
    7: (35, 40, 95, 170), 8: (45, 55, 150, 225), 9: (55, 65, 180, 255), 10: (70, 85, 270, 345), 11: (120, 135, 405, 500),
    12: (135, 155, 535, 655), 13: (170, 195, 645, 740), 14: (225, 250, 810, 855), 15: (280, 305, 945, 945), 16: (340, 380, 1015, 1015),
    17: (415, 455, 1250, 1250), 18: (1250, 1250, 1250, 1250), 21: (10,), 22: (30,), 23: (60,), 24: (1250,),
}

# By the STC mark.
TABLES = (ORDINARY, STC)

# The kinds of a pool; the share of a mixed pool from which SEC-IRBA applies; the number of loans below which a wholesale pool has coefficients of its own.
SA_POOL, IRB_POOL, MIXED_POOL = 0, 1, 2
SHARE_LEAST, LOANS_SPLIT = 950_000, 25

# The coefficients of the parameter under SEC-IRBA, in hundredths: constant, per 1/number, per charge, per loss, per year.
COEFFICIENTS = {
    "wholesale senior": (0, 356, -185, 55, 7),
    "wholesale senior under 25 loans": (11, 261, -291, 68, 7),
    "wholesale non-senior": (16, 287, -103, 21, 7),
    "wholesale non-senior under 25 loans": (22, 235, -246, 48, 7),
    "retail senior": (0, 0, -748, 71, 24),
    "retail non-senior": (0, 0, -578, 55, 27),
}
PARAMETER_LEAST = 300_000

# A tranche: the place of its amount, its row with the class as rank and the maturity in months, its three rating words. The IRB section. And a sheet with no bad
# word, the risk weights of its rows in hundredths; `irb` is None in an SA pool.
Tranche = namedtuple("Tranche", "at amount rank months held codes")
Irb = namedtuple("Irb", "charge loss loans retail share average")
Deal = namedtuple("Deal", "resecuritised diligence composition stc rows tranches irb")

# A weight, the fourth word of a line or what it starts from, and what passes as the seventh: one number, or two with the higher first.
Ends = namedtuple("Ends", "weight least")


class Refused(Exception):
    """A refusal: its number and its place."""

    def __str__(self):
        return "refused %d at %d" % self.args


def up(x, y):
    """x / y, rounded up."""
    return -(-x // y)


def spaced(numbers):
    """Numbers with single spaces between them."""
    return " ".join(map(str, numbers))


# ---- dates


def day_of(word):
    """The day of the years 2000 to 2199 that a word names, year × 10,000 + month × 100 + day; None where it names none."""
    year, month, day = word // 10_000, word // 100 % 100, word % 100
    try:
        return date(year, month, day) if year in YEARS else None
    except ValueError:
        return None


def months_between(reporting, maturity):
    """12 × years apart + months apart, plus one when the maturity's day of the month is the later."""
    return 12 * (maturity.year - reporting.year) + maturity.month - reporting.month + (maturity.day > reporting.day)


def months_of(word, reporting):
    """The months of a maturity word: itself, and with a reporting date the months from there to the day that it names."""
    return months_between(reporting, day_of(word)) if reporting else word


def maturity_fault(word, reporting):
    """With a reporting date 17 for a word that names no day after it; then 10 for months outside 1 to 1200."""
    if reporting and not (day_of(word) and day_of(word) > reporting):
        return 17
    return 0 if 1 <= months_of(word, reporting) <= MONTHS_MOST else 10


# ---- the sheet, judged word by word


def within(least, most, number):
    """The fault of a word by its limits: this number outside them, else 0."""
    return lambda w: 0 if least <= w <= most else number


def row_faults(resecuritised, unit):
    """The faults of the four words of a pool row: exposure, nominal, risk weight in that unit, status."""
    amount = within(1, 10**10, 5)
    return amount, amount, within(0, unit.most, 6), within(3, 3, 7) if resecuritised else within(0, 2, 7)


def irb_limits(kind):
    """The least and the most of each word of the IRB section of a pool of this kind."""
    return Irb((0, MILLION), (0, MILLION), (1, MILLION), (0, 1), (MILLION if kind == IRB_POOL else 0, MILLION), (0, TOP))


def judged(words, units=UNITS):
    """The deal of a sheet, or the first fault of a word, then 3. The units are those of the risk weight word, by the seventh fact."""
    place = 0

    def take(fault):
        nonlocal place
        if place == len(words):
            raise Refused(1, place)
        number = fault(words[place])
        if number:
            raise Refused(number, place)
        place += 1
        return words[place - 1]

    facts = take(within(FACTS_LEAST, FACTS_MOST, 2))
    kind = take(within(SA_POOL, MIXED_POOL, 4))
    resecuritised, diligence, composition = (take(within(0, 1, 4)) for _ in range(3))
    stc = take(lambda w: 4 if w > 1 else 16 if w and resecuritised else 0) if facts > 4 else 0
    reporting = day_of(take(lambda w: 17 if w and not day_of(w) else 0)) if facts > 5 else None
    unit = units[take(within(0, len(units) - 1, 4)) if facts > 6 else 0]
    rows, tranches, last = [], [], 0
    for _ in range(take(within(1, ROWS, 2))):
        exposure, nominal, weight, status = map(take, row_faults(resecuritised, unit))
        rows.append((exposure, nominal, unit.hundredths(weight), status))
    for _ in range(take(within(1, TRANCHES, 2))):
        at = place
        amount = take(within(1, 10**13, 8))
        last = take(within(max(last, 1), last + 1, 9))
        months = months_of(take(lambda w: maturity_fault(w, reporting)), reporting)
        held = take(within(0, amount, 8))
        codes = [take(lambda w: 0 if w == 0 or w in ORDINARY else 11) for _ in range(3)]
        tranches.append(Tranche(at, amount, last, months, held, codes))
    irb = None
    if kind != SA_POOL:
        take(within(1, 1, 2))
        irb = Irb(*(take(within(*limits, 18)) for limits in irb_limits(kind)))
    if place < len(words):
        raise Refused(3, place)
    return Deal(resecuritised, diligence, composition, stc, rows, tranches, irb)


# ---- points and pool charge


def point(rows, tranches, counted):
    """What is left of the pool's nominal after the tranches of the classes that count, in millionths, rounded down."""
    nominal = sum(n for _, n, _, _ in rows)
    return max(0, nominal - sum(t.amount for t in tranches if counted(t.rank))) * MILLION // nominal


def points(deal, own):
    """The attachment and the detachment point of a class."""
    return point(deal.rows, deal.tranches, lambda rank: rank <= own), point(deal.rows, deal.tranches, lambda rank: rank < own)


def mean_weight(rows, scale):
    """Scale × (sum of exposure × risk weight) / (sum of exposure), rounded up. The paper's scales for weights in percent, 800 and 100, are 8 and 1 for hundredths."""
    return up(scale * sum(e * w for e, _, w, _ in rows), sum(e for e, _, _, _ in rows))


def pool_charge(rows):
    """The pool charge, and whether unknown rows are within 5% of all exposure."""
    every = sum(e for e, _, _, _ in rows)
    known = [r for r in rows if r[3] != 2]
    exposure = sum(e for e, _, _, _ in known)
    if 20 * (every - exposure) > every:
        return MILLION, False
    base = mean_weight(known, 8)
    late = up(sum(n for _, n, _, s in known if s == 1) * MILLION, sum(n for _, n, _, _ in known))
    charge = up((MILLION - late) * base + 500_000 * late, MILLION)
    return up(exposure * charge + (every - exposure) * MILLION, every), True


def by_irba(deal):
    """Whether a deal's tranches take SEC-IRBA. The share of an IRB pool is 10^6."""
    return deal.diligence and not deal.resecuritised and deal.irb is not None and deal.irb.share >= SHARE_LEAST


def mixed_charge(deal):
    """The charge under SEC-IRBA: share × IRB charge + rest × base charge, rounded up, with the base charge over all rows."""
    return up(deal.irb.share * deal.irb.charge + (MILLION - deal.irb.share) * mean_weight(deal.rows, 8), MILLION)


def charge_of(deal):
    """The charge of a deal, and whether unknown rows leave SEC-SA."""
    return (mixed_charge(deal), True) if by_irba(deal) else pool_charge(deal.rows)


# ---- inferred ratings


def reference_of(deal, tranche):
    """The row whose ratings a tranche takes, or None. "An unrated tranche of an ordinary deal without SEC-IRBA looks for rated tranches of its own or a junior class
    with equal or longer maturity in months. Of these the most senior class counts, and in it the first row." A tranche is rated by words of its own. Without due
    diligence the ratings change nothing."""
    if any(tranche.codes) or deal.resecuritised or by_irba(deal):
        return None
    found = [t for t in deal.tranches if any(t.codes) and t.rank >= tranche.rank and t.months >= tranche.months]
    return min(found, key=lambda t: t.rank, default=None)


def with_ratings_that_count(deal, tranche):
    """A tranche with the ratings that its line goes by. "It takes that row's ratings, with its own class, maturity and thickness"; where there is no such row it keeps
    its own."""
    reference = reference_of(deal, tranche)
    return tranche._replace(codes=reference.codes) if reference else tranche


# ---- the rating tables


def maturity(months):
    return max(60, min(300, 4 * months + 12))


def figure_by_rating(code, stc, senior, months, thickness):
    """The exact figure by one rating. A non-senior one is no lower than the senior figure, but in an STC deal it may be (CRE42.14)."""
    row = TABLES[stc][code]
    if len(row) == 1:
        return Fraction(100 * row[0])
    fifths = maturity(months)
    run = [Fraction(one * (300 - fifths) + five * (fifths - 60), 240) for one, five in (row[:2], row[2:])]
    thin = run[1] * (1 - Fraction(min(thickness, 500_000), MILLION))
    return 100 * (run[0] if senior else thin if stc else max(thin, run[0]))


def figures_by_ratings(deal, tranche, thickness):
    """The exact figures by the ratings that a tranche has, in their order."""
    return [figure_by_rating(code, deal.stc, tranche.rank == 1, tranche.months, thickness) for code in tranche.codes if code]


def one_that_counts(weights):
    """One rating's own; of two the higher; of three the two lowest are picked, and the higher of these counts."""
    return max(sorted(weights)[:2])


def table_ends(figures):
    """The weight by each rating is rounded up, then one of them counts; as the seventh word one of the exact figures counts, then it is rounded down."""
    return Ends(one_that_counts([ceil(figure) for figure in figures]), (floor(one_that_counts(figures)),))


# ---- the formula


def exact_raw_weight(a, d, k, p):
    """The formula's value where K is at least 1 and D above K, to a hundred digits. It is never whole, nor half of a whole number. One that a hundred digits can't tell
    from such a number lies a trace above 0, or below TOP times (K − A + s) / (D − A), and is given on its side of it."""
    scale = Fraction(p * k, MILLION)

    def decay(x):
        q = Fraction(x) / scale
        return (-Decimal(q.numerator) / q.denominator).exp()

    gap = decay(max(a - k, 0)) - decay(d - k)
    within = max(k - a, 0)
    exact = TOP * (within + Decimal(scale.numerator) / scale.denominator * gap) / (d - a)
    trace = Decimal(10) ** -60
    if abs(2 * exact - (2 * exact).to_integral_value()) > trace:
        return Fraction(exact)
    return Fraction(TOP) * (within + scale) / (d - a) - Fraction(trace) if a <= k else Fraction(trace)


def raw_ends(a, d, k, p):
    """The raw weight, where the formula applies its exact value rounded up; and what passes as the seventh word before floor and cap: there the whole numbers
    that are at most the exact value and less than one and a half below it."""
    if d <= k:
        return Ends(TOP, (TOP,))
    if k == 0:
        return Ends(0, (0,))
    exact = exact_raw_weight(a, d, k, p)
    return Ends(ceil(exact), tuple(v for v in (floor(exact), floor(exact) - 1) if v >= 0 and exact < v + Fraction(3, 2)))


# ---- the parameter of SEC-IRBA


def coefficients_of(irb, senior):
    """The name of the coefficients that a tranche takes. Retail has no split by the number of loans."""
    name = "%s %s" % ("retail" if irb.retail else "wholesale", "senior" if senior else "non-senior")
    return name if irb.retail or irb.loans >= LOANS_SPLIT else name + " under 25 loans"


def parameter_sum(irb, stc, months, charge, coefficients):
    """The sum for the parameter, halved in an STC deal, exact."""
    measures = 1, Fraction(1, irb.loans), Fraction(charge, MILLION), Fraction(irb.loss, MILLION), Fraction(maturity(months), 60)
    total = sum(c * m for c, m in zip(coefficients, measures)) / 100
    return total / 2 if stc else total


def parameter_of_sum(total):
    """A sum rounded up to a millionth, then raised to 0.3."""
    return max(PARAMETER_LEAST, up(total.numerator * MILLION, total.denominator))


# ---- the report

# A line: what it was worked out from, its tranche with the ratings that count, and its ends before and after floor and cap. And the lines of all reports.
Line = namedtuple("Line", "deal tranche a d charge approach raw ends")
LINES = []


def parameter_and_floor(resecuritised, stc, senior):
    """Those of 01 and S-1."""
    if resecuritised:
        return 1_500_000, 10_000
    if stc:
        return 500_000, 1_000 if senior else 1_500
    return MILLION, 1_500


def approach_of(deal, codes, known):
    """Which approach a tranche takes, by the rating words that count for it."""
    if not deal.diligence:
        return FALLBACK
    if deal.resecuritised:
        return SA
    if by_irba(deal):
        return IRBA
    return ERBA if any(codes) else SA if known else FALLBACK


def cap_of(deal, approach, senior):
    """The cap of a class; None where it has none."""
    if not senior or deal.resecuritised or not deal.composition:
        return None
    return deal.irb.average if approach == IRBA else mean_weight(deal.rows, 1)


def limited(deal, approach, senior, raw):
    """Both ends raised to the floor, then lowered to the cap."""
    lowest, cap = parameter_and_floor(deal.resecuritised, deal.stc, senior)[1], cap_of(deal, approach, senior)

    def kept(weight):
        return max(weight, lowest) if cap is None else min(max(weight, lowest), cap)

    return Ends(kept(raw.weight), tuple(dict.fromkeys(kept(least) for least in raw.least)))


def irba_ends(deal, tranche, a, d, charge, coefficients):
    """The raw ends of a tranche under SEC-IRBA with these coefficients."""
    parameter = parameter_of_sum(parameter_sum(deal.irb, deal.stc, tranche.months, charge, coefficients))
    return raw_ends(a, d, charge, parameter)


def irba_weight(deal, tranche, a, d, charge, coefficients):
    """The weight of a tranche under SEC-IRBA with these coefficients."""
    return limited(deal, IRBA, tranche.rank == 1, irba_ends(deal, tranche, a, d, charge, coefficients)).weight


def ends_of(deal, approach, tranche, a, d, charge):
    """The ends of a tranche by its approach, before floor and cap."""
    senior = tranche.rank == 1
    if approach == FALLBACK:
        return Ends(TOP, (TOP,))
    if approach == IRBA:
        return irba_ends(deal, tranche, a, d, charge, COEFFICIENTS[coefficients_of(deal.irb, senior)])
    if approach == ERBA:
        return table_ends(figures_by_ratings(deal, tranche, d - a))
    return raw_ends(a, d, charge, parameter_and_floor(deal.resecuritised, deal.stc, senior)[0])


def amounts(held, weight):
    """The risk-weighted amount and the capital."""
    return up(held * weight, 10_000), up(held * weight * 8, MILLION)


def line_of(deal, tranche, charge, known):
    """The line of a tranche with the ratings that count, or refusal 13, which an unrated tranche that finds a rating no longer meets."""
    a, d = points(deal, tranche.rank)
    approach = approach_of(deal, tranche.codes, known)
    if approach in (SA, IRBA) and a == d and d > charge:
        raise Refused(13, tranche.at)
    raw = ends_of(deal, approach, tranche, a, d, charge)
    return Line(deal, tranche, a, d, charge, approach, raw, raw if approach == FALLBACK else limited(deal, approach, tranche.rank == 1, raw))


def forms_of(line):
    """The seven words of a line, in each form that passes."""
    weight, held = line.ends.weight, line.tranche.held
    return [(line.approach, line.a, line.d, weight, *amounts(held, weight), least) for least in line.ends.least]


def weighed(words, room=LINE_SIZE * TRANCHES, counting=with_ratings_that_count, judging=judged):
    """The charge and the lines of a sheet, by the ratings that count; or the refusal: that of its words, then 14 where so many result words are too few, then 13."""
    deal = judging(words)
    if room < LINE_SIZE * len(deal.tranches):
        raise Refused(14, 0)
    charge, known = charge_of(deal)
    return charge, [line_of(deal, counting(deal, tranche), charge, known) for tranche in deal.tranches]


def report(words):
    """The text of a sheet's file, line by line, each in the forms that pass."""
    try:
        charge, lines = weighed(words)
    except Refused as r:
        return [[str(r)]]
    LINES.extend(lines)
    lines = [forms_of(line) for line in lines]
    text = [["charge %d tranches %d" % (charge, len(lines))]]
    text += [[spaced((i, *words)) for words in forms] for i, forms in enumerate(lines, 1)]
    return text + [["total %d %d" % tuple(sum(forms[0][n] for forms in lines) for n in (4, 5))]]


# ---- totals by portfolio

# The rows of a block.
BLOCK_ROWS = 50


def sums(rows):
    """The seven sums of some rows: exposure, nominal and weighted exposure, each over all of them and over those with known status, and late nominal."""

    def three(some):
        return sum(e for e, _, _, _ in some), sum(n for _, n, _, _ in some), sum(e * w for e, _, w, _ in some)

    return [*three(rows), *three([r for r in rows if r[3] != 2]), sum(n for _, n, _, s in rows if s == 1)]


def block_of(rows, block):
    """The rows of a block, counted from 0; past the last there are none."""
    return [row for i, row in enumerate(rows) if i // BLOCK_ROWS == block]


def block_text(words, block):
    """What a caller reads of a block of a sheet: its seven sums, or the refusal that the words get."""
    try:
        return spaced(sums(block_of(judged(words).rows, block)))
    except Refused as r:
        return str(r)


def totals(words, judging=judged):
    """The text of a sheet's totals by portfolio, line by line: for each block its number, its first and its last row, and its sums; then those of the pool. Weighted
    exposure is in hundredths of a percent whatever the sheet's unit."""
    try:
        rows = judging(words).rows
    except Refused as r:
        return [str(r)]
    blocks = [block_of(rows, block) for block in range(up(len(rows), BLOCK_ROWS))]
    if sums(rows) != [sum(each) for each in zip(*map(sums, blocks))]:
        sys.exit("the totals by portfolio are not those of the pool")
    firsts = range(1, len(rows) + 1, BLOCK_ROWS)
    lines = [spaced((i, first, first + len(block) - 1, *sums(block))) for i, (first, block) in enumerate(zip(firsts, blocks))]
    return lines + ["total " + spaced(sums(rows))]


# ---- the converter


def in_hundredths(words):
    """Whether the risk weights of a sheet are in hundredths; not where it has no seventh fact."""
    return words[0] > 6 and words[UNIT_AT] == 1


def filled(words):
    """A sheet whose missing facts are written as zeros."""
    facts = words[0]
    return [FACTS_MOST, *words[1:1 + facts], *[0] * (FACTS_MOST - facts), *words[1 + facts:]]


def weights_at(words):
    """The places of a sheet's risk weights."""
    rows_at = words[0] + 1
    return range(rows_at + 3, rows_at + 1 + ROW_SIZE * words[rows_at], ROW_SIZE)


def not_whole(words):
    """The places of the risk weights in hundredths that are no whole percents."""
    return (at for at in (weights_at(words) if in_hundredths(words) else ()) if words[at] % 100)


def bad_words(words, room):
    """"The refusals of the words and 3", at the places of the sheet as given."""
    judged(words)


def no_whole_percent(words, room):
    """"Going down to percent, a weight that is not a multiple of 100 gets 19 at its place": the first one does."""
    for at in not_whole(words):
        raise Refused(19, at)


def too_short(words, room):
    """"Then an output too short for the rewritten sheet gets 14 at place 0"."""
    if room < len(filled(words)):
        raise Refused(14, 0)


def rewritten(words):
    """A sheet in the other unit: "shorter fact lists are filled with zeros first", the unit is the other one, and each risk weight 100 times as much or a hundredth."""
    sheet = filled(words)
    for at in weights_at(sheet):
        sheet[at] = sheet[at] // 100 if in_hundredths(words) else 100 * sheet[at]
    sheet[UNIT_AT] = 0 if in_hundredths(words) else 1
    return sheet


def converted(words, room=MOST_WORDS, refusals=(bad_words, no_whole_percent, too_short), rewriting=rewritten):
    """The words that a conversion writes where so many are lent, or the first of its refusals. 13 is not judged."""
    for refusal in refusals:
        refusal(words, room)
    return rewriting(words)


def conversion(words, output, **other):
    """The answer to a conversion, and the lent words after it: a refusal writes nothing, and later words are untouched."""
    try:
        written = converted(words, len(output), **other)
    except Refused as r:
        return str(r), output
    return "converted %d" % len(written), written + output[len(written):]


def written_text(answer, output):
    """The text of a conversion: its answer with the words that it wrote."""
    return answer if refusal_of(answer) else "%s: %s" % (answer, spaced(output[:int(answer.split()[1])]))


# ---- amendments

# The words of an amendment, "the row number counted from 1 and then the row".
AMENDMENT_SIZE = 1 + ROW_SIZE

# What is read of a pool that is opened, and again after each amendment: the answer, the sheet, its seven sums, its charge, and its lines in the forms that pass, or
# 13. Of a sheet that is not opened there is the answer alone.
Step = namedtuple("Step", "answer sheet sums charge lines", defaults=(None,) * 4)


def row_at(words, number):
    """The place of a pool row by its number."""
    return words[0] + 2 + ROW_SIZE * (number - 1)


def row_of(words, number):
    """A pool row by its number, its risk weight in hundredths."""
    return judged(words).rows[number - 1]


def amendment_faults(words):
    """The faults of an amendment's five words: "A row number that is not there gets 2, and a bad row gets 5, 6 or 7 as on loading"."""
    return within(1, words[words[0] + 1], 2), *row_faults(words[2], UNITS[in_hundredths(words)])


def first_bad_word(words, amendment):
    """The refusal "at the first bad word of the five counted from 0". A word that is not there, or after the five, is none of these."""
    for place, (word, fault) in enumerate(zip(amendment, amendment_faults(words))):
        if fault(word):
            raise Refused(fault(word), place)


def missing_word(words, amendment):
    """"Fewer words get 1 at the amendment's length"."""
    if len(amendment) < AMENDMENT_SIZE:
        raise Refused(1, len(amendment))


def further_word(words, amendment):
    """"More get 3 at 5"."""
    if len(amendment) > AMENDMENT_SIZE:
        raise Refused(3, AMENDMENT_SIZE)


def replaced(words, amendment):
    """"An amendment replaces one row in the opened pool"."""
    at = row_at(words, amendment[0])
    return words[:at] + amendment[1:] + words[at + ROW_SIZE:]


def loaded(words):
    """What is read of a sheet that is opened: all of it by a fresh load. "A sheet that gets a refusal before 14 returns it and is not opened; 13 and 14 are not judged
    here"."""
    deal = judged(words)
    read = lines_read(words, judged)
    lines = [[read]] if isinstance(read, str) else [[spaced((i, *line)) for line in forms] for i, forms in enumerate(read[1], 1)]
    return Step("opened", words, sums(deal.rows), charge_of(deal)[0], lines)


def amended(before, number, amendment, refusals=(first_bad_word, missing_word, further_word), replacing=replaced, reading=lambda before, after, amendment: after):
    """What is read of an opened pool after an amendment with that number in its list: what a fresh load of the sheet with the row replaced gives; where it is refused
    nothing changes."""
    try:
        for refusal in refusals:
            refusal(before.sheet, amendment)
        after = reading(before, loaded(replacing(before.sheet, amendment)), amendment)
        return after._replace(answer="amendment %d: row replaced" % number)
    except Refused as r:
        return before._replace(answer="amendment %d: %s" % (number, r))


def run(words, amendments, opening=loaded, amending=amended):
    """What is read of a sheet that is opened, and after each of the amendments, one after another."""
    try:
        steps = [opening(words)]
    except Refused as r:
        return [Step(str(r))]
    for number, amendment in enumerate(amendments, 1):
        steps.append(amending(steps[-1], number, amendment))
    return steps


# ---- what the program prints, in its order

MONTHS = (1, 12, 36, 71, 72, 1200)
INPUTS = (
    (100000, 100000, 100000, 1000000), (50000, 100000, 100000, 1000000), (0, 0, 0, 1000000), (0, 1000000, 0, 1000000), (0, 1, 0, 1500000),
    (100000, 200000, 100000, 1000000), (50000, 150000, 100000, 1000000), (100000, 300000, 68000, 1000000), (120000, 320000, 68000, 1000000),
    (80000, 280000, 68000, 1000000), (0, 1000000, 80000, 1000000), (0, 1000000, 80000, 1500000), (0, 1000000, 500000, 1000000),
    (0, 1000000, 500000, 1500000), (660000, 660001, 160000, 1000000), (190000, 200000, 50000, 1000000), (0, 1000000, 1, 1000000),
    (999999, 1000000, 1, 1000000), (1, 2, 1, 1000000), (0, 1000000, 999999, 1000000), (999999, 1000000, 999999, 1500000),
    (999999, 1000000, 500000, 1500000),
    (50000, 100000, 100000, 500000), (0, 1000000, 0, 500000), (100000, 200000, 100000, 500000), (50000, 150000, 100000, 500000),
    (0, 1000000, 160000, 500000), (0, 1000000, 500000, 500000), (100000, 300000, 68000, 500000), (120000, 320000, 68000, 500000),
    (80000, 280000, 68000, 500000), (660000, 660001, 160000, 500000), (1, 2, 1, 500000), (999999, 1000000, 1, 500000),
    (999999, 1000000, 999999, 500000),
)
PLACES = (0, 1, 16, 50, 354, 355)
THIN = [4, 0, 0, 1, 1, 2, 6000000, 6000000, 100, 0, 4000000, 4000000, 100, 0]
THIN += [3, 8999991, 1, 60, 0, 1, 0, 0, 5, 2, 60, 5, 0, 0, 0, 1000004, 3, 60, 0, 0, 0, 0]
CHECKED = [4, 0, 0, 1, 1, 2, 950, 950, 100, 0, 50, 50, 100, 1, 3, 800, 1, 72, 800, 1, 0, 0, 150, 2, 72, 100, 9, 0, 0, 50, 3, 72, 50, 0, 0, 0]

FOLDER = os.path.join(os.path.dirname(os.path.abspath(__file__)), "..", "crates", "checked_examples")
# The stored text, line by line. It is read for the choice between two forms that pass, and for nothing else.
STORED = iter(open(os.path.join(FOLDER, "stdout")).read().splitlines())


def say(forms):
    """Prints a line and returns it. Two forms of it pass where the rules leave the seventh word or the low number of a raw weight open: of these it is the one that
    the stored text has in this place, else the first."""
    stored = next(STORED, None)
    text = stored if stored in forms else forms[0]
    print(text)
    return text


# Of each sheet with a report: its words, the report and the totals by portfolio.
PORTFOLIOS = []


def checksum(words):
    """A checksum of words, in which the place of each counts."""
    total = 0
    for word in words:
        total = (31 * total + word) % 1_000_003
    return total


def say_texts(name, words, many=False):
    """Prints a name, the report on a sheet, its totals by portfolio and its conversion, of many words with their checksum alone, and returns the report."""
    say([name])
    text = "\n".join(say(forms) for forms in report(words))
    PORTFOLIOS.append((words, text, [say([line]) for line in totals(words)]))
    answer, output = conversion(words, [0] * MOST_WORDS)
    say(["%s, checksum %d" % (answer, checksum(output[:int(answer.split()[1])])) if many and not refusal_of(answer) else written_text(answer, output)])
    return text


def print_figures():
    for months in MONTHS:
        say(["maturity of months %d: %d" % (months, maturity(months))])
    for inputs in INPUTS:
        ends = raw_ends(*inputs)
        say(["raw weight at A %d D %d K %d p %d: %d to %d" % (*inputs, low, ends.weight) for low in ends.least])
    for n in PLACES:
        say(["decay entry %d: %d" % (n, int(2**32 * (-Decimal(n) / 16).exp()))])


def answer(words, room):
    """How a sheet is answered with so many result words."""
    try:
        weighed(words, room)
        return "weighed"
    except Refused as r:
        return str(r)


def print_rooms():
    """Two deals of three tranches with a word too few for each line, with one too few in all, and with enough: 14 comes before 13. Returns what is said of them."""
    rooms = product((("thin tranche", THIN), ("checked deal", CHECKED)), (3 * (LINE_SIZE - 1), 3 * LINE_SIZE - 1, 3 * LINE_SIZE))
    return [say(["%s, results of %d words: %s" % (name, room, answer(words, room))]) for (name, words), room in rooms]


def print_limits():
    """Files of zeros, and the largest deals: seven facts, a mixed pool of 1,000 rows of 10^10, 32 tranches of a 32nd of the pool, the IRB section."""
    for length in (0, 7, MOST_BYTES - 1, MOST_BYTES, MOST_BYTES + 1, MOST_BYTES + 8):
        words, bad = [0] * (length // 8), [str(Refused(15, 0))] if length % 8 or length > MOST_BYTES else []
        say(["file of zeros, bytes %d: %s" % (length, bad[0] if bad else answer(words, 0))])
        for line in bad or totals(words):
            say([line])
    percent = (1250, 0, 0, 0), (100, 0, 0, 0), (100, 0, 1, 0), (100, 0, 0, SHARE_LEAST), (100, 0, 1, MILLION)
    for weight, unit, stc, share in (*percent, (125_000, 1, 0, 0), (3750, 1, 0, SHARE_LEAST)):
        sheet = [FACTS_MOST, MIXED_POOL, 0, 1, 1, stc, 0, unit, ROWS] + [10**10, 10**10, weight, 0] * ROWS + [TRANCHES]
        for rank in range(1, TRANCHES + 1):
            sheet += [312500000000, rank, 1200, 312500000000, 0, 0, 0]
        sheet += [1, *Irb(charge=200_000, loss=MILLION, loans=MILLION, retail=0, share=share, average=TOP)]
        say_texts("largest deal, risk weight %d, unit %d, STC mark %d, share %d" % (weight, unit, stc, share), sheet, many=True)


def different_rows(count, resecuritised=0, unit=0):
    """A sheet with so many rows, of which no two have an exposure, a nominal amount or a risk weight in common. In an ordinary deal every third is of unknown status,
    with little exposure, and the cap lowers the one tranche, below CCC-, to the pool's average."""
    sheet = [FACTS_MOST, SA_POOL, resecuritised, 1, 1, 0, 0, unit, count]
    for i in range(count):
        weight = 125_000 - 37 * i if unit else 1250 - i
        sheet += [i + 1 if i % 3 == 2 else MILLION + i, 2 * MILLION + 3 * i, weight, 3 if resecuritised else i % 3]
    return sheet + [1, MILLION, 1, 60, MILLION, 18, 0, 0]


def print_pools():
    """Pools of different rows, with their totals by portfolio."""
    percent = [*((n, 0, 0) for n in (1, 49, 50, 51, 99, 100, 101, ROWS)), (101, 1, 0)]
    for case in (*percent, (1, 0, 1), (101, 0, 1), (ROWS, 0, 1)):
        say_texts("different rows %d, re-securitisation %d, unit %d" % case, different_rows(*case), many=True)


# The first blocks, the last that a pool may have and the next; 2^32, which cut to 32 bits is 0; then numbers whose product with 50, cut to 64 bits, is 34, 0, and 50
# below 2^64.
BLOCKS = 0, 1, 2, 19, 20, 2**32, (2**64 + 34) // BLOCK_ROWS, 2**63, 2**64 - 1


def print_blocks():
    """Single blocks as a caller reads them, of sheets that are accepted, that 6 and 3 refuse, and that 13 refuses where they are weighed. Returns words, block and text
    of each."""
    bad = different_rows(51)
    bad[FACTS_MOST + 2 + ROW_SIZE * 50 + 2] = 1251
    sheets = {"different rows %d" % count: different_rows(count) for count in (50, 51, ROWS)}
    sheets |= {"hundredths, different rows %d" % count: different_rows(count, unit=1) for count in (51, ROWS)}
    sheets |= {"a word too many, rows 51": different_rows(51) + [0], "the last risk weight 1251, rows 51": bad, "thin tranche, rows 2": THIN}
    read = []
    for (name, words), block in product(sheets.items(), BLOCKS):
        read.append((words, block, block_text(words, block)))
        say(["%s, block %d: %s" % (name, block, read[-1][2])])
    return read


# The smallest deal in percent, of four facts, and in hundredths, 37%: each has 21 words in the other unit. And what lent words are before a conversion.
SMALL_PERCENT = [4, 0, 0, 1, 1, 1, 1000, 1000, 100, 0, 1, 1000, 1, 60, 1000, 0, 0, 0]
SMALL_HUNDREDTHS = [7, 0, 0, 1, 1, 0, 0, 1, 1, 1000, 1000, 3700, 0, 1, 1000, 1, 60, 1000, 0, 0, 0]
UNTOUCHED = 999


def print_outputs():
    """Conversions with too few lent words, with an exact fit and with words to spare. Returns words, room and text of each."""
    bad, uneven = list(SMALL_PERCENT), list(SMALL_HUNDREDTHS)
    bad[8], uneven[11] = 1251, 12550
    sheets = {"four facts": SMALL_PERCENT, "four facts, a word too many": SMALL_PERCENT + [0], "four facts, risk weight 1251": bad}
    sheets |= {"hundredths": SMALL_HUNDREDTHS, "hundredths, risk weight 12550": uneven}
    lent = []
    for name, words, room in [*((*sheet, room) for sheet, room in product(sheets.items(), (0, 20, 21, 23))), *(("thin tranche", THIN, room) for room in (38, 39))]:
        answer, output = conversion(words, [UNTOUCHED] * room)
        lent.append((words, room, say(["%s, output of %d words: %s" % (name, room, answer)])))
        say([" ".join(["output:", *map(str, output)])])
    return lent


def read_examples():
    """The words of each example, by name: of the sheets, and of the lists of amendments, which come last and whose first word is 0, no sheet's number of facts."""
    examples = {}
    for name in open(os.path.join(FOLDER, "args")).read().split():
        text = open(os.path.join(FOLDER, "data", name)).read()
        examples[name] = [int(w) for l in text.splitlines() for w in l.split("#")[0].split()]
    lists = {name: parts_of(words) for name, words in examples.items() if words[:1] == [0]}
    return {name: words for name, words in examples.items() if name not in lists}, lists


def parts_of(words):
    """The sheet and the amendments of such an example: after the 0 each is the number of its words, then the words."""
    parts, at = [], 1
    while at < len(words):
        parts.append(words[at + 1:at + 1 + words[at]])
        at += 1 + words[at]
    if at != len(words):
        sys.exit("the last part is shorter than its number of words: %s" % spaced(words))
    return parts[0], parts[1:]


def print_examples(sheets):
    """Prints the report on each example and its totals by portfolio, and returns the reports by name. Leaves in LINES those of the examples alone."""
    LINES.clear()
    return {name: say_texts(name, words) for name, words in sheets.items()}


def print_lists(lists):
    """Prints what is read of each example's sheet that is opened and amended, and returns the steps by name."""
    runs = {name: run(*parts) for name, parts in lists.items()}
    for name, steps in runs.items():
        say([name])
        for step in steps:
            say([step.answer])
            for forms in [["sums " + spaced(step.sums)], ["charge %d" % step.charge], *step.lines] if step.sheet else []:
                say(forms)
    return runs


def check_tables(texts):
    """Each column of each table is the last weights of one example; the first column's has the short-term grades too."""
    for kind, table in zip(("erba", "stc"), TABLES):
        for column, name in enumerate(("senior_1_year", "senior_5_years", "non_senior_1_year", "non_senior_5_years")):
            weights = [int(l.split()[4]) for l in texts["%s_table_%s.txt" % (kind, name)].splitlines()[1:-1]]
            due = [100 * row[column] for row in table.values() if column < len(row)]
            if weights[-len(due):] != due:
                sys.exit("%s_table_%s.txt: not the column of the table" % (kind, name))


def rating_cases(line):
    """What the ratings of a line under SEC-ERBA are an example of."""
    codes = line.tranche.codes
    weights = [ceil(figure) for figure in figures_by_ratings(line.deal, line.tranche, line.d - line.a)]
    if len(weights) == 1:
        yield "one rating in word %d" % [bool(c) for c in codes].index(True)
    elif len(weights) == 2:
        yield "two ratings, none in word %d, the higher %s" % (codes.index(0), "first" if weights[0] > weights[1] else "last" if weights[0] < weights[1] else "equal")
    else:
        low, middle, high = sorted(weights)
        if low < middle < high:
            yield "three weights in the order %s" % " ".join("low middle high".split()[sorted(weights).index(w)] for w in weights)
        elif low < middle:
            yield "two equal and one lower, in word %d" % weights.index(low)
        elif middle < high:
            yield "two equal and one higher, in word %d" % weights.index(high)
        else:
            yield "three equal"
        if weights[codes.index(sorted(codes)[1])] != middle:
            yield "another rating by code than by weight"
        if min(codes) < 19 < max(codes):
            yield "three ratings, long and short term"


def refusal_of(text):
    """Number and place where a report is a refusal, else None."""
    return tuple(int(n) for n in text.split()[1::2]) if text.startswith("refused") else None


def check_met(due, met):
    """Every case that is due is met."""
    missing = [case for case in due if case not in met]
    if missing:
        sys.exit("no example of: %s" % "; ".join(missing))


def check_ratings():
    """Every case of one, two and three ratings is met."""
    met = {case for line in LINES if line.approach == ERBA for case in rating_cases(line)}
    due = ["one rating in word %d" % n for n in range(3)]
    due += ["two ratings, none in word %d, the higher %s" % (n, place) for n in range(3) for place in ("first", "last")]
    due += ["three weights in the order %s" % " ".join(o) for o in permutations(("low", "middle", "high"))]
    due += ["two equal and one %s, in word %d" % (which, n) for which in ("lower", "higher") for n in range(3)]
    due += ["three equal", "another rating by code than by weight", "three ratings, long and short term"]
    check_met(due, met)


# ---- the cases of dates


def no_day(word):
    """What is wrong with a word that names no day of the years 2000 to 2199."""
    year, month, day = word // 10_000, word // 100 % 100, word % 100
    if year not in YEARS:
        return "2^64 - 1" if word == 2**64 - 1 else "2^32 above a day" if day_of(word - 2**32) else "year %d" % year
    if not 1 <= month <= 12:
        return "month %d" % month
    if (month, day) == (2, 29):
        return "29 February 2100" if year == 2100 else "29 February of a common year"
    return "%d of month %d" % (day, month) if 1 <= day <= 31 else "day %d" % day


def span_cases(reporting, maturity, number):
    """What a maturity after the reporting date, with the refusal that it gets, is an example of; of the day of the month, where the rating table tells the months."""
    months = months_between(reporting, maturity)
    yield "%d %s to %d %s, months %d" % (reporting.day, reporting.strftime("%B"), maturity.day, maturity.strftime("%B"), months)
    yield "months %d, refusal %d" % (months, number)
    next_day = [day + timedelta(1) for day in (reporting, maturity)]
    if 12 < months < 72:
        order = "equal" if maturity.day == reporting.day else "later" if maturity.day > reporting.day else "earlier"
        yield "the maturity's day of the month %s" % order
        if all(day.day == 1 for day in next_day):
            yield "month end to month end, the maturity's day of the month %s" % order
    for day, end in ((reporting, "from"), (maturity, "to")):
        if (day.month, day.day) == (2, 29):
            yield "%s 29 February %d" % (end, day.year)
    if maturity == next_day[0]:
        yield "the day after, %s" % ("1 " + maturity.strftime("%B") if maturity.day == 1 else "in the same month")


def maturity_cases(reporting, word, number):
    """What a maturity beside a reporting date, with the refusal that it gets, is an example of."""
    day = day_of(word)
    if not day:
        yield "%d at a maturity, %s" % (number, no_day(word))
        if word // 10_000 > reporting.year + MONTHS_MOST // 12:
            yield "%d at a maturity, %s and above 1200 months" % (number, no_day(word))
    elif day > reporting:
        yield from span_cases(reporting, day, number)
    else:
        yield "%d at a maturity, %d days before" % (number, (reporting - day).days)


def date_cases(words, text):
    """What a sheet with a sixth fact and the report on it are an example of."""
    if words[:1] not in ([6], [7]) or len(words) <= REPORTING_AT:
        return
    number, place = refusal_of(text) or (0, len(words))
    word, reporting = words[REPORTING_AT], day_of(words[REPORTING_AT])
    rows_at = words[0] + 1
    first = rows_at + 1 + ROW_SIZE * dict(enumerate(words)).get(rows_at, 0) + 1
    maturities = {at: words[at] for at in range(first + 2, len(words), TRANCHE_SIZE)}
    if place == REPORTING_AT:
        yield "%d at the reporting date, %s" % (number, no_day(word))
        if any(w and not day_of(w) for w in maturities.values()):
            yield "%d at the reporting date before a bad maturity" % number
    for at, maturity in maturities.items():
        fault = number if at == place else 0
        if at > place:
            break
        if reporting:
            yield from maturity_cases(reporting, maturity, fault)
        elif word == 0:
            yield "sixth fact 0, %s, refusal %d" % ("a date" if day_of(maturity) else "months %d" % maturity, fault)


def check_dates(sheets, texts):
    """Every case of dates is met."""
    met = {case for name, words in sheets.items() for case in date_cases(words, texts[name])}
    met |= {"eight facts, %s" % texts[name] for name, words in sheets.items() if words[:1] == [8]}
    no_days = ["31 of month 4", "30 of month 2", "29 February of a common year", "29 February 2100", "year 1999", "year 2200", "month 0", "month 13", "day 0", "day 32"]
    no_days += ["year 0", "2^32 above a day", "2^64 - 1"]
    due = ["17 at %s, %s" % (place, fault) for place in ("the reporting date", "a maturity") for fault in no_days]
    due += ["17 at a maturity, %d days before" % days for days in (0, 1, 365)] + ["17 at a maturity, year 2200 and above 1200 months"]
    due += ["17 at the reporting date before a bad maturity", "eight facts, refused 2 at 0"]
    due += ["31 January to 28 February, months %d" % n for n in (1, 25)] + ["28 February to 31 March, months %d" % n for n in (2, 26)]
    due += ["%sthe maturity's day of the month %s" % (ends, order) for ends in ("", "month end to month end, ") for order in ("equal", "earlier", "later")]
    due += ["%s 29 February %d" % (end, year) for end in ("from", "to") for year in (2000, 2004, 2024)]
    due += ["the day after, %s" % month for month in ("in the same month", "1 January", "1 March", "1 May")]
    due += ["months %d, refusal %d" % case for case in ((1, 0), (1200, 0), (1201, 10), (2400, 10))]
    due += ["sixth fact 0, months %d, refusal %d" % case for case in ((1, 0), (1200, 0), (0, 10), (1201, 10))] + ["sixth fact 0, a date, refusal 10"]
    check_met(due, met)


def moved(text, places):
    """A report on the same deal with that many facts more: the place of 13 is so much higher."""
    refusal = refusal_of(text)
    return str(Refused(refusal[0], refusal[1] + places)) if refusal else text


# The endings of the names of deals that are another's, without the ending, otherwise written.
ENDINGS = "_dated.txt", "_sixth_fact_0.txt", "_seventh_fact_0.txt", "_hundredths.txt"


def written_otherwise(sheets):
    """The names of each sheet that is another's deal otherwise written, of that sheet, and its ending."""
    for name in sheets:
        yield from ((name, name.removesuffix(ending) + ".txt", ending) for ending in ENDINGS if name.endswith(ending))


def check_same_lines(sheets, texts):
    """A deal in dates, in hundredths, or with a sixth or seventh fact of 0, has the report of the deal in months or in percent with fewer facts, and the same totals by
    portfolio. In hundredths it is what that deal is converted to, and it is converted back to that deal with seven facts. Every approach is among the deals in dates
    and in hundredths."""
    approaches = set()
    for name, base, ending in written_otherwise(sheets):
        words, other = sheets[base], sheets[name]
        if texts[name] != moved(texts[base], other[0] - words[0]) or totals(other) != totals(words):
            sys.exit("%s: not the report and the totals of %s" % (name, base))
        if ending == "_hundredths.txt" and (converted(words) != other or converted(other) != filled(words)):
            sys.exit("%s: not %s in the other unit" % (name, base))
        approaches |= {"approach %s, %s" % (l.split()[1], ending) for l in texts[name].splitlines()[1:-1]}
    check_met(["approach %d, %s" % case for case in product((FALLBACK, ERBA, SA, IRBA), ("_dated.txt", "_hundredths.txt"))], approaches)


# ---- the cases of the IRB section


def not_by_irba(resecuritised, diligence, share):
    """Why SEC-IRBA does not apply to a deal with an IRB section; None where it does."""
    if not diligence:
        return "no due diligence"
    if resecuritised:
        return "re-securitisation"
    return "share %d" % share if share < SHARE_LEAST else None


def thin_cases(deal, place):
    """What 13 under SEC-IRBA is an example of, by the place of the tranche's amount."""
    tranche = next(t for t in deal.tranches if t.at == place)
    if any(tranche.codes):
        yield "13 under SEC-IRBA, a rated tranche"
    if mixed_charge(deal) == 0:
        yield "13 under SEC-IRBA, charge 0"
    if points(deal, tranche.rank)[1] <= pool_charge(deal.rows)[0]:
        yield "13 under SEC-IRBA, D not above the charge of 01"


def refused_section_cases(words, number, place):
    """What a refused sheet of an IRB or a mixed pool is an example of: the refusal at its IRB section, with the reason where SEC-IRBA does not apply, or 13
    under SEC-IRBA."""
    if number == 13 and by_irba(judged(words)):
        yield from thin_cases(judged(words), place)
    found = dict(enumerate(words))
    tranches_at = words[0] + 2 + ROW_SIZE * found.get(words[0] + 1, 0)
    section_at = tranches_at + 1 + TRANCHE_SIZE * found.get(tranches_at, 0)
    if place >= section_at:
        share = found.get(section_at + 5, MILLION) if words[1] == MIXED_POOL else MILLION
        reason = not_by_irba(words[2], words[3], share)
        case = "pool kind %d, %d at word %d, %s" % (words[1], number, place - section_at, found.get(place, "missing"))
        yield "%d at the section, %s" % (number, reason) if reason else case


def accepted_section_cases(deal, kind, text):
    """What an accepted sheet of an IRB or a mixed pool is an example of: the words of its IRB section, and the approaches where SEC-IRBA does not apply."""
    yield from ("word %d of the section %d" % word for word in enumerate(deal.irb, 1))
    reason = not_by_irba(deal.resecuritised, deal.diligence, deal.irb.share)
    if reason:
        yield from ("pool kind %d, %s, approach %s" % (kind, reason, l.split()[1]) for l in text.splitlines()[1:-1])


def section_cases(words, text):
    """What a sheet and the report on it are an example of, by its IRB section; of an SA pool, that the words which follow its tranches are a section."""
    number, place = refusal_of(text) or (0, 0)
    if words[1:2] in ([IRB_POOL], [MIXED_POOL]):
        yield from refused_section_cases(words, number, place) if number else accepted_section_cases(judged(words), words[1], text)
    elif number == 3 and words[place] == 1 and len(words) == place + 1 + IRB_SIZE:
        yield "3 at a section"


def coefficient_cases(deal, tranche, a, d, charge):
    """The coefficients that a line under SEC-IRBA depends on: with a hundredth more it would have another weight. And whether no other row of coefficients gives it."""
    name = coefficients_of(deal.irb, tranche.rank == 1)
    own = COEFFICIENTS[name]
    weights = {key: irba_weight(deal, tranche, a, d, charge, c) for key, c in COEFFICIENTS.items()}
    for i, what in enumerate(("constant", "per 1/number", "per charge", "per loss", "per year")):
        if irba_weight(deal, tranche, a, d, charge, own[:i] + (own[i] + 1,) + own[i + 1:]) != weights[name]:
            yield "%s: %s" % (name, what)
    if list(weights.values()).count(weights[name]) == 1:
        yield "%s, %d loans" % (name, deal.irb.loans)


def parameter_cases(deal, tranche, a, d, charge):
    """What the parameter of a line under SEC-IRBA is an example of."""
    coefficients = COEFFICIENTS[coefficients_of(deal.irb, tranche.rank == 1)]
    total = parameter_sum(deal.irb, deal.stc, tranche.months, charge, coefficients)
    least = Fraction(PARAMETER_LEAST, MILLION)
    stc = "STC" if deal.stc else "no STC"
    weight = irba_weight(deal, tranche, a, d, charge, coefficients)

    def by(parameter):
        return limited(deal, IRBA, tranche.rank == 1, raw_ends(a, d, charge, parameter)).weight

    if total < 0:
        yield "%s, a negative sum" % stc
    if deal.stc and total > least:
        yield "STC, half of the sum above 0.3"
    if deal.stc and total < least < 2 * total and by(parameter_of_sum(2 * total)) != weight:
        yield "STC, the sum above 0.3 and half of it below"
    if by(max(PARAMETER_LEAST, total.numerator * MILLION // total.denominator)) != weight:
        yield "%s, the parameter rounded up" % stc
    if by(parameter_of_sum(parameter_sum(deal.irb, deal.stc, tranche.months, deal.irb.charge, coefficients))) != weight:
        yield "%s, the mixed charge in the parameter" % stc


def charge_cases(deal, tranche, a, d, charge):
    """What the charge of a deal under SEC-IRBA is an example of, and how D stands to it."""
    share, rows = Fraction(deal.irb.share, MILLION), deal.rows
    known = [r for r in rows if r[3] != 2]
    yield "share %d" % deal.irb.share
    base = Fraction(8 * sum(e * w for e, _, w, _ in rows), sum(e for e, _, _, _ in rows))
    exact = share * deal.irb.charge + (1 - share) * base
    if up(exact.numerator, exact.denominator) != charge:
        yield "the base charge rounded up first"
    if share < 1 and not known:
        yield "no known row"
    elif share < 1 and mixed_charge(deal._replace(rows=known)) != charge and not pool_charge(rows)[1]:
        yield "base over all rows, unknown ones above 5%"
    if any(s == 1 for _, _, _, s in rows):
        yield "late rows"
    yield "K %s, D %s" % ("0" if charge == 0 else "above 0", "above K" if d > charge else "K" if d == charge else "below K")
    if a == d and d > pool_charge(rows)[0]:
        yield "A = D above the charge of 01 alone"


def limit_cases(deal, tranche, a, d, charge):
    """What floor, cap and ratings of a line under SEC-IRBA are an example of."""
    if any(tranche.codes):
        yield "a rated tranche"
    if tranche.rank == 1:
        coefficients = COEFFICIENTS[coefficients_of(deal.irb, True)]
        weight, uncapped = (irba_weight(deal._replace(composition=known), tranche, a, d, charge, coefficients) for known in (1, 0))
        if not deal.composition and weight < uncapped:
            yield "an IRB average below the weight, composition unknown"
        elif weight < uncapped:
            side = "below" if deal.irb.average < mean_weight(deal.rows, 1) else "above"
            yield "cap %s" % ("0" if weight == 0 else "below the floor" if weight < 1_000 else side + " the pool average")


def check_irba(sheets, texts):
    """Every case of the IRB section and of SEC-IRBA is met."""
    met = {case for name, words in sheets.items() for case in section_cases(words, texts[name])}
    for deal, tranche, a, d, charge, *_ in (line for line in LINES if line.approach == IRBA):
        for cases in (coefficient_cases, parameter_cases, charge_cases, limit_cases):
            met.update(cases(deal, tranche, a, d, charge))
    kinds = IRB_POOL, MIXED_POOL
    due = ["pool kind %d, 1 at word 0, missing" % kind for kind in kinds] + ["pool kind 1, 1 at word %d, missing" % n for n in (1, 6)]
    due += ["pool kind 1, 2 at word 0, 0", "pool kind 1, 2 at word 0, 6", "pool kind 2, 2 at word 0, 2", "pool kind 1, 3 at word 7, 0", "pool kind 2, 3 at word 7, 1"]
    outside = [(1, MILLION + 1), (2, MILLION + 1), (3, 0), (4, 2), (5, 0), (5, MILLION - 1), (5, MILLION + 1), (6, TOP + 1)]
    due += ["pool kind 1, 18 at word %d, %d" % case for case in outside]
    due += ["pool kind 2, 18 at word %d, %d" % case for case in ((3, MILLION + 1), (5, MILLION + 1))]
    due += ["pool kind 2, 18 at word %d, %d" % (n, 2**64 - 1) for n in (1, 6)]
    due += ["%d at the section, re-securitisation" % number for number in (1, 2, 18)] + ["%d at the section, no due diligence" % number for number in (1, 18)]
    due += ["18 at the section, share 500000", "3 at a section"]
    due += ["13 under SEC-IRBA, %s" % case for case in ("a rated tranche", "charge 0", "D not above the charge of 01")]
    due += ["word %d of the section %d" % (n, word) for n, limits in enumerate(irb_limits(MIXED_POOL), 1) for word in limits]
    due += ["pool kind %d, re-securitisation, approach 2" % kind for kind in kinds] + ["pool kind %d, no due diligence, approach 0" % kind for kind in kinds]
    due += ["pool kind 2, share %d, approach %d" % case for case in ((SHARE_LEAST - 1, ERBA), (SHARE_LEAST - 1, SA), (0, FALLBACK))]
    due += ["%s: %s" % (name, what) for name in COEFFICIENTS for what in ("constant", "per 1/number", "per charge", "per loss", "per year")]
    splits = "wholesale %s under 25 loans, 24 loans", "wholesale %s, 25 loans", "retail %s, 24 loans", "retail %s, 25 loans"
    due += [split % rank for split, rank in product(splits, ("senior", "non-senior"))]
    due += ["STC, a negative sum", "no STC, a negative sum", "STC, half of the sum above 0.3", "STC, the sum above 0.3 and half of it below"]
    due += ["no STC, the parameter rounded up", "no STC, the mixed charge in the parameter", "the base charge rounded up first"]
    due += ["share %d" % share for share in (SHARE_LEAST, MILLION - 1, MILLION)] + ["no known row", "base over all rows, unknown ones above 5%", "late rows"]
    due += ["K 0, D above K", "K 0, D K", "K above 0, D above K", "K above 0, D K", "K above 0, D below K", "A = D above the charge of 01 alone"]
    due += ["a rated tranche", "an IRB average below the weight, composition unknown"]
    due += ["cap %s" % cap for cap in ("0", "below the floor", "below the pool average", "above the pool average")]
    check_met(due, met)


# ---- the cases of the seventh word


def table_cases(line):
    """What the figures of a line under SEC-ERBA are an example of."""
    figures = figures_by_ratings(line.deal, line.tranche, line.d - line.a)
    exact = one_that_counts(figures)
    equal = [floor(figure) for figure in figures if ceil(figure) == line.raw.weight]
    if len(set(equal)) > 1:
        which = "higher" if floor(exact) == max(equal) else "lower"
        yield "%d ratings, figures that are equal rounded up, the %s counts and stands %s" % (len(figures), which, "first" if equal[0] == floor(exact) else "last")
    # Every figure of the tables is a multiple of 5%.
    if exact.denominator == 1 and exact % 500:
        yield "table, a whole figure between those of the table"


def formula_cases(line):
    """What charge and points of a line by the formula are an example of."""
    composition = "known" if line.deal.composition else "unknown"
    if line.d <= line.charge:
        yield "formula, D not above K"
    elif line.charge == 0:
        yield "formula, K 0, class %d, composition %s, %d" % (line.tranche.rank, composition, line.ends.least[0])
    elif line.ends == line.raw:
        yield "formula, just below 125,000" if line.raw.weight == TOP else "formula, numbers that pass: %d" % len(line.raw.least)


def ends_cases(line):
    """What both ends of a line are an example of."""
    deal, tranche, _, _, _, approach, raw, ends = line
    by = ("fallback", "table", "formula", "formula")[approach]
    cap = cap_of(deal, approach, tranche.rank == 1)
    yield from table_cases(line) if by == "table" else formula_cases(line) if by == "formula" else ()
    if by == "fallback" and cap is not None and cap < TOP:
        yield "fallback, not lowered to the cap"
    if ends.weight not in ends.least:
        yield "approach %d, %s, ends differ" % (approach, "re-securitisation" if deal.resecuritised else "STC deal" if deal.stc else "ordinary deal")
        for what, due, *others in zip(("risk-weighted amount", "capital"), *(amounts(tranche.held, weight) for weight in (ends.weight, *ends.least))):
            if due not in others:
                yield "%s by the fourth word" % what
    elif raw.weight not in raw.least and ends.least == (ends.weight,):
        # Where the weight before the floor is above it, the floor leaves the ends apart, and only the cap can make them equal.
        lowest = parameter_and_floor(deal.resecuritised, deal.stc, tranche.rank == 1)[1]
        if raw.weight > lowest or ends.weight == lowest:
            yield "%s, ends made equal by the %s" % (by, "cap" if raw.weight > lowest else "floor")


def check_ends(said):
    """Every case of the seventh word is met; and 14 with a word too few for each line, where the deal is accepted with one more."""
    met = {case for line in LINES for case in ends_cases(line)} | set(said)
    equal = "%s ratings, figures that are equal rounded up, the %s counts and stands %s"
    due = [equal % (*case, place) for case in ((2, "higher"), (3, "higher"), (3, "lower")) for place in ("first", "last")]
    due += ["table, a whole figure between those of the table", "formula, D not above K", "formula, just below 125,000"]
    due += ["formula, K 0, class 1, composition unknown, 1500", "formula, K 0, class 1, composition known, 0", "fallback, not lowered to the cap"]
    due += ["formula, numbers that pass: %d" % n for n in (1, 2)]
    due += ["%s, ends made equal by the %s" % case for case in product(("table", "formula"), ("floor", "cap"))]
    due += ["approach %d, %s, ends differ" % case for case in product((ERBA, SA, IRBA), ("ordinary deal", "STC deal"))]
    due += ["approach %d, re-securitisation, ends differ" % SA, "risk-weighted amount by the fourth word", "capital by the fourth word"]
    due += ["checked deal, results of %d words: %s" % case for case in ((3 * (LINE_SIZE - 1), "refused 14 at 0"), (3 * LINE_SIZE, "weighed"))]
    check_met(due, met)


# ---- the cases of totals by portfolio


def portfolio_cases(words, text, lines):
    """What a sheet, the report on it and its totals by portfolio are an example of. A row counts as first or last of a block where another block lies next to it."""
    if lines[0] == text:
        yield "%d in the totals too" % refusal_of(text)[0]
        return
    if refusal_of(text):
        yield "%d in the report alone" % refusal_of(text)[0]
    rows = judged(words).rows
    if all(len(set(column)) == len(rows) for column in list(zip(*rows))[:3]):
        yield "rows %d, all different" % len(rows)
    if len(rows) > BLOCK_ROWS and len(rows) % BLOCK_ROWS:
        yield "last block of rows %d" % (len(rows) % BLOCK_ROWS)
    yield from ("status %d, first row of a block" % s for _, _, _, s in rows[BLOCK_ROWS::BLOCK_ROWS])
    yield from ("status %d, last row of a block" % s for _, _, _, s in rows[BLOCK_ROWS - 1:-1:BLOCK_ROWS])
    yield from ("known exposure 0" for line in lines if line.split()[-4] == "0")
    yield from ("weighted exposure 0" for line in lines if line.split()[-5] == "0")


def block_cases(words, block, text):
    """What a block that a caller reads is an example of."""
    if refusal_of(text):
        yield "%d, block %d" % (refusal_of(text)[0], block)
        return
    blocks, first = up(len(judged(words).rows), BLOCK_ROWS), BLOCK_ROWS * block
    yield "%sblocks %d, block %d" % ("hundredths, " if in_hundredths(words) else "", blocks, block)
    if answer(words, LINE_SIZE * TRANCHES) != "weighed":
        yield "%s where it is weighed, block %d" % (answer(words, LINE_SIZE * TRANCHES), block)
    if blocks <= block and block % 2**32 < blocks:
        yield "block %d past the last, in 32 bits one of the pool's" % block
    if 2**64 <= first and first % 2**64 < len(judged(words).rows):
        yield "first row above 2^64, in 64 bits %d" % (first % 2**64)
    if (first + BLOCK_ROWS) % 2**64 == 0:
        yield "end of the block in 64 bits 0"


def check_totals(read):
    """Every case of totals by portfolio is met, and of the blocks that a caller reads."""
    met = {case for portfolio in PORTFOLIOS for case in portfolio_cases(*portfolio)} | {case for one in read for case in block_cases(*one)}
    due = ["rows %d, all different" % count for count in (1, 49, 50, 51, 99, 100, 101, ROWS)] + ["last block of rows %d" % count for count in (1, 49)]
    due += ["status %d, %s row of a block" % case for case in product(range(4), ("first", "last"))] + ["known exposure 0", "weighted exposure 0"]
    due += ["%d in the totals too" % number for number in (*range(1, 12), 16, 17, 18)] + ["13 in the report alone"]
    due += ["blocks %d, block %d" % case for case in ((1, 0), (1, 1), (2, 0), (2, 1), (2, 2), (20, 0), (20, 19), (20, 20), *product((1, 2, 20), (2**64 - 1,)))]
    due += ["hundredths, blocks %d, block %d" % case for case in ((2, 0), (2, 1), (2, 2), (20, 0), (20, 19), (20, 20))]
    due += ["%d, block %d" % case for case in product((3, 6), (0, 2, 2**64 - 1))]
    due += ["refused 13 at 22 where it is weighed, block %d" % block for block in (0, 1)]
    due += ["block %d past the last, in 32 bits one of the pool's" % block for block in (2**32, 2**63)]
    due += ["first row above 2^64, in 64 bits %d" % first for first in (0, 34)] + ["end of the block in 64 bits 0"]
    check_met(due, met)


# ---- the cases of inferred ratings


def exemption(deal):
    """Why no line of a deal goes by another tranche's ratings; None where one may."""
    if not deal.diligence:
        return "no due diligence"
    return "re-securitisation" if deal.resecuritised else "SEC-IRBA" if by_irba(deal) else None


def would_find(deal, tranche):
    """Whether a tranche would find ratings in an ordinary deal without SEC-IRBA."""
    return reference_of(deal._replace(resecuritised=0, irb=None), tranche) is not None


def other_weights(line, reference):
    """The weights of a line that takes ratings, had it the class, the maturity or the thickness of the row that it takes them from."""
    own, thick, (a, d) = line.tranche, line.d - line.a, points(line.deal, reference.rank)
    others = ("class", own._replace(rank=reference.rank), thick), ("maturity", own._replace(months=reference.months), thick), ("thickness", own, d - a)
    for what, tranche, thickness in others:
        yield what, limited(line.deal, ERBA, tranche.rank == 1, table_ends(figures_by_ratings(line.deal, tranche, thickness))).weight


def taken_cases(line, reference):
    """What a line that takes ratings is an example of."""
    weight, codes = line.ends.weight, line.tranche.codes
    yield from ("its own %s" % what for what, other in other_weights(line, reference) if other != weight)
    yield "taken, ratings %d" % sum(map(bool, codes))
    yield "taken, %s, %s" % ("STC deal" if line.deal.stc else "ordinary deal", "senior" if line.tranche.rank == 1 else "non-senior")
    if max(codes) > 19:
        yield "taken, short-term grade"
    if not pool_charge(line.deal.rows)[1]:
        yield "taken, unknown above 5%"
    elif line.d <= line.charge:
        yield "taken, D not above the charge"
    elif line.a == line.d:
        yield "taken, A = D above the charge"
    if line.raw.weight != weight:
        yield "taken, %s" % ("raised to the floor" if line.raw.weight < weight else "lowered to the cap")
    if weight not in line.ends.least:
        yield "taken, ends differ"


def inferred_cases(line):
    """What a line is an example of, by the ratings that it takes or does not."""
    own = next(t for t in line.deal.tranches if t.at == line.tranche.at)
    reference, why = reference_of(line.deal, own), exemption(line.deal)
    if reference and not why:
        yield from taken_cases(line, reference)
    elif why and would_find(line.deal, own):
        yield "nothing taken, %s, approach %d" % (why, line.approach)
    elif not why and not any(own.codes) and any(any(t.codes) for t in line.deal.tranches):
        yield "none found, approach %d" % line.approach


def sheet_cases(words, text):
    """What a sheet is an example of, by dates where a row takes ratings from an earlier day, and by 13."""
    number, place = refusal_of(text) or (0, 0)
    deal = judged(words)
    for own in deal.tranches:
        reference = reference_of(deal, own)
        if reference and not exemption(deal) and words[reference.at + 2] < words[own.at + 2]:
            yield "taken from an earlier day"
        if number == 13 and place == own.at and not any(own.codes):
            if would_find(deal, own):
                yield "13, nothing taken, %s" % exemption(deal)
            elif any(t.rank > own.rank and any(t.codes) for t in deal.tranches):
                yield "13, no rating found below it"


def not_senior(own, rated):
    """Of the rated rows those of its own or a junior class."""
    return [t for t in rated if t.rank >= own.rank]


def found(own, rated):
    """Of these the ones with equal or longer maturity. The first is the one that counts."""
    return [t for t in not_senior(own, rated) if t.months >= own.months]


# The rows whose ratings an unrated tranche might take by a misreading of S-8, in the order in which they would count.
OTHER_ROWS = {
    "none": lambda own, rated: [],
    "not of its own class": lambda own, rated: [t for t in found(own, rated) if t.rank > own.rank],
    "not before it": lambda own, rated: [t for t in found(own, rated) if t.at > own.at],
    "not after it in its own class": lambda own, rated: [t for t in found(own, rated) if t.rank > own.rank or t.at < own.at],
    "of its own class alone": lambda own, rated: [t for t in found(own, rated) if t.rank == own.rank],
    "of its own or the next class alone": lambda own, rated: [t for t in found(own, rated) if t.rank <= own.rank + 1],
    "of a senior class too": lambda own, rated: [t for t in rated if t.months >= own.months],
    "of longer maturity alone": lambda own, rated: [t for t in found(own, rated) if t.months > own.months],
    "of equal maturity alone": lambda own, rated: [t for t in found(own, rated) if t.months == own.months],
    "of any maturity": not_senior,
    "of equal or longer maturity in fifths": lambda own, rated: [t for t in not_senior(own, rated) if maturity(t.months) >= maturity(own.months)],
    "the most junior class first": lambda own, rated: sorted(found(own, rated), key=lambda t: -t.rank),
    "the last row first": lambda own, rated: sorted(found(own, rated), key=lambda t: (t.rank, -t.at)),
    "the longest maturity first": lambda own, rated: sorted(found(own, rated), key=lambda t: -t.months),
    "the nearest maturity first": lambda own, rated: sorted(found(own, rated), key=lambda t: t.months),
    "the best rating first": lambda own, rated: sorted(found(own, rated), key=lambda t: min(c for c in t.codes if c)),
    "of the first rated class alone": lambda own, rated: [t for t in found(own, rated) if t.rank == not_senior(own, rated)[0].rank],
    "of the first rated row alone": lambda own, rated: [t for t in not_senior(own, rated)[:1] if t.months >= own.months],
}


def taking(rows_of):
    """Such a misreading in place of with_ratings_that_count."""

    def counting(deal, own):
        looks = not (any(own.codes) or deal.resecuritised or by_irba(deal))
        rows = rows_of(own, [t for t in deal.tranches if any(t.codes)]) if looks else []
        return own._replace(codes=rows[0].codes) if rows else own

    return counting


def in_chains(deal, own):
    """The misreading that a row counts as rated by ratings that it has taken."""
    tranches = list(deal.tranches)
    for i in reversed(range(len(tranches))):
        tranches[i] = with_ratings_that_count(deal._replace(tranches=tranches), tranches[i])
    return next(t for t in tranches if t.at == own.at)


def rated_too(deal, own):
    """The misreading that a rated tranche takes ratings of a junior class."""
    reference = reference_of(deal._replace(tranches=[t for t in deal.tranches if t.rank > own.rank]), own._replace(codes=[0, 0, 0]))
    return own._replace(codes=reference.codes) if any(own.codes) and reference else with_ratings_that_count(deal, own)


def rated_by_first_word(deal, own):
    """The misreading that a tranche is rated by its first word alone."""
    reference = reference_of(deal._replace(tranches=[t for t in deal.tranches if t.codes[0]]), own._replace(codes=[own.codes[0], 0, 0]))
    return own._replace(codes=reference.codes) if reference else own


def first_rating_alone(deal, own):
    """The misreading that one rating is taken, the row's first."""
    reference = reference_of(deal, own)
    return own._replace(codes=[next(c for c in reference.codes if c), 0, 0]) if reference else own


MISREADINGS = {name: taking(rows_of) for name, rows_of in OTHER_ROWS.items()}
MISREADINGS |= {"chains": in_chains, "rated tranches too": rated_too, "rated by the first word": rated_by_first_word, "the first rating alone": first_rating_alone}


def lines_by(words, counting):
    """The lines of a sheet by these ratings, or the refusal."""
    try:
        return [forms_of(line) for line in weighed(words, counting=counting)[1]]
    except Refused as r:
        return str(r)


def check_inferred(sheets, texts):
    """Every case of inferred ratings is met, and every misreading answers some sheet otherwise."""
    good = {name: words for name, words in sheets.items() if (refusal_of(texts[name]) or (13, 0))[0] == 13}
    met = {case for line in LINES for case in inferred_cases(line)} | {case for name, words in good.items() for case in sheet_cases(words, texts[name])}
    due = ["its own %s" % what for what in ("class", "maturity", "thickness")] + ["taken, ratings %d" % n for n in (1, 2, 3)]
    due += ["taken, %s, %s" % case for case in product(("ordinary deal", "STC deal"), ("senior", "non-senior"))]
    due += ["taken, %s" % what for what in ("short-term grade", "unknown above 5%", "D not above the charge", "A = D above the charge")]
    due += ["taken, %s" % what for what in ("raised to the floor", "lowered to the cap", "ends differ")] + ["taken from an earlier day"]
    due += ["none found, approach %d" % approach for approach in (SA, FALLBACK)] + ["13, no rating found below it"]
    due += ["nothing taken, %s, approach %d" % case for case in (("re-securitisation", SA), ("SEC-IRBA", IRBA), ("no due diligence", FALLBACK))]
    due += ["13, nothing taken, %s" % why for why in ("re-securitisation", "SEC-IRBA")]
    right = {name: lines_by(words, with_ratings_that_count) for name, words in good.items()}
    for name, counting in MISREADINGS.items():
        due.append("S-8 misread, %s" % name)
        met.update(due[-1:] if any(lines_by(words, counting) != right[sheet] for sheet, words in good.items()) else [])
    check_met(due, met)


# ---- the cases of the unit of risk weights


def weight_cases(words, number, place):
    """What the risk weights of a sheet are an example of: each that is accepted, and one that is refused."""
    unit, facts = int(in_hundredths(words)), words[0]
    with suppress(IndexError):
        for at in weights_at(words):
            if number == 6 and place == at:
                yield "6, facts %d, unit %d, weight %d" % (facts, unit, words[at])
            elif number in (0, 13):
                yield "facts %d, unit %d, weight %d" % (facts, unit, words[at])


def hundredths_cases(words, number):
    """What a sheet in hundredths that is accepted, or that 13 refuses, is an example of."""
    if number == 13:
        yield "hundredths, 13"
        return
    for line in weighed(words)[1]:
        deal, cap = line.deal, cap_of(line.deal, line.approach, line.tranche.rank == 1)
        kind = "re-securitisation" if deal.resecuritised else "STC deal" if deal.stc else "ordinary deal"
        yield "hundredths, approach %d, %s, %s" % (line.approach, kind, "in dates" if words[REPORTING_AT] else "in months")
        if line.approach in (ERBA, SA) and cap == line.ends.weight < line.raw.weight and cap % 100:
            yield "hundredths, approach %d, lowered to %d" % (line.approach, cap)
            if sum(e * w for e, _, w, _ in deal.rows) % sum(e for e, _, _, _ in deal.rows):
                yield "hundredths, lowered to a cap that is rounded up"
    deal = judged(words)
    if by_irba(deal) and any(w % 100 for _, _, w, _ in deal.rows):
        yield "hundredths, IRB average %d, share %d" % (deal.irb.average, deal.irb.share)
    yield from ("hundredths, status %d" % s for _, _, w, s in deal.rows if w % 100)


def unit_cases(words, text):
    """What a sheet and the report on it are an example of, by the unit of its risk weights."""
    number, place = refusal_of(text) or (0, 0)
    if place == UNIT_AT and words[0] == FACTS_MOST:
        yield "%d at the seventh fact, %s" % (number, words[UNIT_AT] if UNIT_AT < len(words) else "missing")
    elif place > UNIT_AT or number == 0:
        yield from weight_cases(words, number, place)
        if in_hundredths(words) and number in (0, 13):
            yield from hundredths_cases(words, number)


def with_average(scale):
    """The misreading of the IRB average in another unit."""

    def judging(words):
        deal = judged(words)
        return deal._replace(irb=deal.irb._replace(average=scale(deal.irb.average, in_hundredths(words)))) if deal.irb else deal

    return judging


def with_sums(scale):
    """The misreading of weighted sums in another unit."""

    def judging(words):
        deal = judged(words)
        return deal._replace(rows=[(e, n, scale(w, in_hundredths(words)), s) for e, n, w, s in deal.rows])

    return judging


def units(percent=PERCENT, hundredths=HUNDREDTHS, *others):
    """The misreading of a unit's limit, of what it is in hundredths, or of the seventh fact's codes."""
    return partial(judged, units=(percent, hundredths, *others))


# The sheets that S-9 changes, misread.
OTHER_UNITS = {
    "hundredths to 1250": units(hundredths=HUNDREDTHS._replace(most=1250)),
    "hundredths to 12,500": units(hundredths=HUNDREDTHS._replace(most=12_500)),
    "hundredths to 124,999": units(hundredths=HUNDREDTHS._replace(most=124_999)),
    "hundredths to 125,001": units(hundredths=HUNDREDTHS._replace(most=125_001)),
    "percent to 125,000": units(percent=PERCENT._replace(most=125_000)),
    "hundredths read as percent": units(hundredths=HUNDREDTHS._replace(hundredths=PERCENT.hundredths)),
    "hundredths rounded down to percent": units(hundredths=HUNDREDTHS._replace(hundredths=lambda word: word // 100 * 100)),
    "hundredths rounded up to percent": units(hundredths=HUNDREDTHS._replace(hundredths=lambda word: up(word, 100) * 100)),
    "thousandths": units(hundredths=HUNDREDTHS._replace(hundredths=lambda word: Fraction(word, 10))),
    "the codes the other way round": units(HUNDREDTHS, PERCENT),
    "a seventh fact of 2 as percent": units(PERCENT, HUNDREDTHS, PERCENT),
    "a seventh fact of 2 as hundredths": units(PERCENT, HUNDREDTHS, HUNDREDTHS),
    "no seventh fact as hundredths": lambda words: judged(words, UNITS if words[:1] == [FACTS_MOST] else (HUNDREDTHS, HUNDREDTHS)),
    "the IRB average in the sheet's unit": with_average(lambda average, hundredths: average if hundredths else 100 * average),
    "the IRB average in percent where the unit is hundredths": with_average(lambda average, hundredths: 100 * average if hundredths else average),
    "the IRB average divided by 100 where the unit is hundredths": with_average(lambda average, hundredths: average // 100 if hundredths else average),
}

# The same of the totals by portfolio alone.
OTHER_SUMS = {
    "weighted sums in percent": with_sums(lambda weight, hundredths: Fraction(weight, 100)),
    "weighted sums in the sheet's unit": with_sums(lambda weight, hundredths: weight if hundredths else weight // 100),
    "weighted sums of whole percents": with_sums(lambda weight, hundredths: weight // 100 * 100),
}


def lines_read(words, judging):
    """The charge and the lines of a sheet so judged, or the refusal."""
    try:
        charge, lines = weighed(words, judging=judging)
        return charge, [forms_of(line) for line in lines]
    except Refused as r:
        return str(r)


def check_units(sheets, texts):
    """Every case of the unit of risk weights is met, and every misreading answers some sheet otherwise."""
    met = {case for name, words in sheets.items() for case in unit_cases(words, texts[name])}
    due = ["4 at the seventh fact, %d" % word for word in (2, 2**64 - 1)] + ["1 at the seventh fact, missing"]
    due += ["6, facts %d, unit %d, weight %d" % case for case in ((4, 0, 1251), (5, 0, 1251), (7, 0, 1251), (7, 1, 125_001), *product((7,), (0, 1), (2**64 - 1,)))]
    due += ["facts %d, unit 0, weight %d" % case for case in product((4, 7), (0, 1250))]
    due += ["facts 7, unit 1, weight %d" % weight for weight in (0, 1, 99, 100, 1250, 1251, 3750, 12_550, 124_999, 125_000)]
    due += ["hundredths, 13", *("hundredths, status %d" % status for status in range(4))]
    approaches = *product((ERBA, SA, IRBA), ("ordinary deal", "STC deal")), (SA, "re-securitisation")
    due += ["hundredths, approach %d, %s, in months" % case for case in ((FALLBACK, "ordinary deal"), *approaches)]
    due += ["hundredths, approach %d, STC deal, in dates" % approach for approach in (ERBA, SA)]
    due += ["hundredths, approach %d, lowered to %d" % case for case in ((ERBA, 3750), (SA, 3750), (ERBA, 1250))]
    due += ["hundredths, lowered to a cap that is rounded up", "hundredths, IRB average 3333, share 950000"]
    right, sums = ({name: by(words, judged) for name, words in sheets.items()} for by in (lines_read, totals))
    for by, as_due, misreadings in ((lines_read, right, OTHER_UNITS), (totals, sums, OTHER_SUMS)):
        for name, judging in misreadings.items():
            due.append("S-9 misread, %s" % name)
            met.update(due[-1:] if any(by(words, judging) != as_due[sheet] for sheet, words in sheets.items()) else [])
    check_met(due, met)


# ---- the cases of the converter


def refused_cases(words, text, refusal):
    """What a refused conversion is an example of, with the report on the sheet."""
    number, place = refusal
    uneven = []
    with suppress(IndexError):
        uneven.extend(not_whole(words))
    if number == 19:
        places = weights_at(words)
        yield "19 at row %d of %d, %s" % (places.index(uneven[0]) + 1, len(places), "one of several" if len(uneven) > 1 else "the only one")
        yield "19, weight %d" % words[place]
        yield "19, %d in the report" % (refusal_of(text) or (0,))[0]
    elif refusal_of(text) == refusal:
        yield "%d in the conversion too, facts %d" % (number, words[0] if words else 0)
        if uneven:
            yield "%d %s 19" % (number, "at a lower place than" if place < uneven[0] else "before")


def written_cases(words, text):
    """What a sheet that is converted, and the report on it, are an example of."""
    way = "to percent" if in_hundredths(words) else "to hundredths"
    deal = judged(words)
    yield "facts %d, %s" % (words[0], way)
    if refusal_of(text):
        yield "13, facts %d, %s" % (words[0], way)
    if words[0] > 5 and words[REPORTING_AT]:
        yield "in dates, %s" % way
    if deal.stc or deal.resecuritised:
        yield "%s, %s" % ("STC deal" if deal.stc else "re-securitisation", way)
    if deal.irb:
        yield "IRB section, %s" % way
    for at, becomes in zip(weights_at(words), weights_at(converted(words))):
        yield "%d becomes %d, %s" % (words[at], converted(words)[becomes], way)


def conversion_cases(words, text):
    """What a sheet, the report on it and its conversion are an example of."""
    refusal = refusal_of(conversion(words, [0] * MOST_WORDS)[0])
    return refused_cases(words, text, refusal) if refusal else written_cases(words, text)


def check_laws(words):
    """The laws of a sheet that is converted: the converted one is accepted just where the given one is, 13 at its moved place, and has the same lines and totals;
    converted twice it is the filled sheet; the count is the length plus the facts that are filled in."""
    other, places = converted(words), FACTS_MOST - words[0]
    lines = lines_read(words, judged)
    same = lines_read(other, judged) == (moved(lines, places) if isinstance(lines, str) else lines) and totals(other) == totals(words)
    if not same or converted(other) != filled(words) or len(other) != len(words) + places:
        sys.exit("a conversion breaks a law of S-9: %s" % spaced(words))


# The converter's own misreadings: its refusals otherwise, what it writes otherwise, its answer otherwise.


def early(refusal):
    """A refusal where the words need not be good: of a sheet that ends too early there is none."""

    def judging(words, room):
        with suppress(IndexError):
            refusal(words, room)

    return judging


def words_alone(words, room):
    """The refusals of the words, without 3."""
    try:
        judged(words)
    except Refused as r:
        if r.args[0] != 3:
            raise


def filled_places(words, room):
    """The refusals of the words and 3, at the places of the filled sheet."""
    try:
        judged(words)
    except Refused as r:
        number, place = r.args
        facts = words[0] if words and FACTS_LEAST <= words[0] <= FACTS_MOST else FACTS_MOST
        raise Refused(number, place + FACTS_MOST - facts if place > facts else place)


def thin(words, room):
    """13 too."""
    weighed(words)


def not_whole_at(place_of):
    """19 at another place: `place_of` makes it of the places of the weights that are no whole percents."""

    def judging(words, room):
        uneven = list(not_whole(words))
        if uneven:
            raise Refused(19, place_of(uneven))

    return judging


def in_the_first_row_alone(words, room):
    """19 for the first row's weight alone."""
    for at in not_whole(words):
        if at == weights_at(words)[0]:
            raise Refused(19, at)


def upwards_too(words, room):
    """19 for a weight in percent too."""
    for at in weights_at(words):
        if words[at] % 100:
            raise Refused(19, at)


def room_for(needed):
    """14 by another number of words."""

    def judging(words, room):
        if room < needed(words):
            raise Refused(14, 0)

    return judging


OTHER_REFUSALS = {
    "19 before the refusals of the words": (early(no_whole_percent), bad_words, too_short),
    "19 before 3": (words_alone, no_whole_percent, bad_words, too_short),
    "14 before the refusals of the words": (early(too_short), bad_words, no_whole_percent),
    "14 before 3": (words_alone, too_short, bad_words, no_whole_percent),
    "14 before 19": (bad_words, too_short, no_whole_percent),
    "3 left out": (words_alone, no_whole_percent, too_short),
    "19 left out": (bad_words, too_short),
    "13 judged": (bad_words, no_whole_percent, too_short, thin),
    "13 before 14": (bad_words, no_whole_percent, thin, too_short),
    "places of the filled sheet": (filled_places, no_whole_percent, too_short),
    "19 at the last weight that is no whole percent": (bad_words, not_whole_at(lambda uneven: uneven[-1]), too_short),
    "19 at the start of the row": (bad_words, not_whole_at(lambda uneven: uneven[0] - 2), too_short),
    "19 at place 0": (bad_words, not_whole_at(lambda uneven: 0), too_short),
    "19 in the first row alone": (bad_words, in_the_first_row_alone, too_short),
    "19 going up to hundredths": (bad_words, upwards_too, too_short),
    "14 by the given sheet's length": (bad_words, no_whole_percent, room_for(len)),
    "14 at an exact fit": (bad_words, no_whole_percent, room_for(lambda words: len(filled(words)) + 1)),
    "14 below the longest sheet": (bad_words, no_whole_percent, room_for(lambda words: MOST_WORDS)),
}


def scaling(places_of):
    """The misreading that the words at these places of the rewritten sheet are multiplied or divided too."""

    def rewriting(words):
        sheet = rewritten(words)
        for at in places_of(sheet):
            sheet[at] = sheet[at] // 100 if in_hundredths(words) else 100 * sheet[at]
        return sheet

    return rewriting


def tranches_at(words, word):
    """The places of a word of each tranche in a sheet of seven facts."""
    count_at = FACTS_MOST + 2 + ROW_SIZE * words[FACTS_MOST + 1]
    return range(count_at + 1 + word, count_at + 1 + TRANCHE_SIZE * words[count_at], TRANCHE_SIZE)


def irb_at(words):
    """The place of the IRB section's count in a sheet of seven facts, the sheet's length where it has none."""
    return tranches_at(words, 0)[-1] + TRANCHE_SIZE


def with_unit(unit_of):
    """The misreading of the unit that is written."""

    def rewriting(words):
        sheet = rewritten(words)
        sheet[UNIT_AT] = unit_of(words)
        return sheet

    return rewriting


def weights_kept(kept):
    """The misreading that some weights, by their row from 0 and their number, are written as they stand."""

    def rewriting(words):
        sheet, places = rewritten(words), weights_at(filled(words))
        for row, at in enumerate(places):
            sheet[at] = filled(words)[at] if kept(row, len(places)) else sheet[at]
        return sheet

    return rewriting


def not_filled(words):
    """The misreading that shorter fact lists stay as they are."""
    sheet = rewritten(words)
    return [words[0], *sheet[1:1 + words[0]], *sheet[1 + FACTS_MOST:]]


def unit_after_the_facts(words):
    """The misreading that the unit is written right after the facts that are there."""
    sheet = not_filled(words)
    return rewritten(words) if words[0] == FACTS_MOST else [words[0] + 1, *sheet[1:1 + words[0]], 1, *sheet[1 + words[0]:]]


OTHER_SHEETS = {
    "filling left out": not_filled,
    "the count of facts kept": lambda words: [words[0], *rewritten(words)[1:]],
    "the unit right after the facts": unit_after_the_facts,
    "the unit not flipped": with_unit(lambda words: int(in_hundredths(words))),
    "the unit always hundredths": with_unit(lambda words: 1),
    "the unit always percent": with_unit(lambda words: 0),
    "hundredths always written": lambda words: list(words) if in_hundredths(words) else rewritten(words),
    "percent always written": lambda words: rewritten(words) if in_hundredths(words) else filled(words),
    "exposure scaled too": scaling(lambda sheet: [at - 2 for at in weights_at(sheet)]),
    "nominal scaled too": scaling(lambda sheet: [at - 1 for at in weights_at(sheet)]),
    "tranche amounts scaled too": scaling(lambda sheet: tranches_at(sheet, 0)),
    "held amounts scaled too": scaling(lambda sheet: tranches_at(sheet, 3)),
    "the IRB average scaled too": scaling(lambda sheet: range(irb_at(sheet) + IRB_SIZE, len(sheet))),
    "the IRB charge scaled too": scaling(lambda sheet: range(irb_at(sheet) + 1, len(sheet))[:1]),
    "weights not scaled": weights_kept(lambda row, rows: True),
    "the first row's weight alone": weights_kept(lambda row, rows: row > 0),
    "not the first row's weight": weights_kept(lambda row, rows: row == 0),
    "not the last row's weight": weights_kept(lambda row, rows: row == rows - 1),
    "the first block's weights alone": weights_kept(lambda row, rows: row >= BLOCK_ROWS),
    "the IRB section left out": lambda words: rewritten(words)[:irb_at(rewritten(words))],
}


def rounded(words, output, way):
    """The misreading that a weight that is no whole percent is rounded."""
    even = list(words)
    with suppress(IndexError):
        for at in weights_at(words) if in_hundredths(words) else ():
            even[at] = way(words[at]) * 100
    with suppress(Refused):
        judged(words)
        return conversion(even, output)
    return conversion(words, output)


def later_words_cleared(words, output):
    """The misreading that the words after those written are set to 0."""
    answer, after = conversion(words, output)
    count = 0 if refusal_of(answer) else int(answer.split()[1])
    return answer, after[:count] + [0] * (len(after) - count) if count else after


def written_before_refusing(words, output):
    """The misreading that words are written until a weight that is no whole percent is met, or until the output is full."""
    answer, after = conversion(words, output)
    number, place = refusal_of(answer) or (0, 0)
    if number not in (14, 19):
        return answer, after
    part = filled(words)[:place if number == 19 else len(output)]
    return answer, (part + output[len(part):])[:len(output)]


def count_of_the_given_sheet(words, output):
    """The misreading that the answer counts the words of the sheet as given."""
    answer, after = conversion(words, output)
    return answer if refusal_of(answer) else "converted %d" % len(words), after


OTHER_ANSWERS = {
    "weights rounded down to percent": partial(rounded, way=lambda word: word // 100),
    "weights rounded up to percent": partial(rounded, way=lambda word: up(word, 100)),
    "later words cleared": later_words_cleared,
    "words written before a refusal": written_before_refusing,
    "the count of the given sheet": count_of_the_given_sheet,
}

OTHER_CONVERSIONS = {name: partial(conversion, refusals=refusals) for name, refusals in OTHER_REFUSALS.items()}
OTHER_CONVERSIONS |= {name: partial(conversion, rewriting=rewriting) for name, rewriting in OTHER_SHEETS.items()} | OTHER_ANSWERS


def said_of(sheets, lent, converting):
    """What is printed of all conversions, worked out so: of an example the words that are written, and of lent words each as it is after it."""
    examples = [written_text(*converting(words, [0] * MOST_WORDS)) for words in sheets.values()]
    return examples + [converting(words, [UNTOUCHED] * room) for words, room, _ in lent]


def check_conversions(sheets, texts, lent):
    """Every case of the converter is met, every law kept, and every misreading answers some sheet otherwise."""
    met = {case for name, words in sheets.items() for case in conversion_cases(words, texts[name])} | {text for _, _, text in lent}
    for words, _, _ in PORTFOLIOS:
        if not refusal_of(conversion(words, [0] * MOST_WORDS)[0]):
            check_laws(words)
    due = ["facts %d, to hundredths" % facts for facts in range(FACTS_LEAST, FACTS_MOST + 1)] + ["facts 7, to percent"]
    due += ["13, facts %d, to hundredths" % facts for facts in range(FACTS_LEAST, FACTS_MOST + 1)] + ["13, facts 7, to percent"]
    due += ["%s, %s" % case for case in product(("in dates", "STC deal", "re-securitisation", "IRB section"), ("to hundredths", "to percent"))]
    due += ["%d becomes %d, to hundredths" % (weight, 100 * weight) for weight in (0, 1, 1250)]
    due += ["%d becomes %d, to percent" % (100 * weight, weight) for weight in (0, 1, 1250)]
    due += ["%d in the conversion too, facts 4" % number for number in (1, *range(3, 12), 18)] + ["2 in the conversion too, facts %d" % facts for facts in (3, 8)]
    due += ["%d in the conversion too, facts %d" % case for case in ((16, 5), (17, 6), *product((1, 2, 3, 4, 5, 6, 7, 11, 18), (7,)))]
    due += ["19 at row 1 of 2, the only one", "19 at row 2 of 2, the only one", "19 at row 2 of 4, one of several", "19 at row 51 of 51, the only one"]
    due += ["19, weight %d" % weight for weight in (1, 99, 1250, 1251, 3750, 12_550, 124_999)] + ["19, %d in the report" % number for number in (0, 13)]
    due += ["%d before 19" % number for number in (1, 2, 3, 6, 7, 11, 18)] + ["5 at a lower place than 19"]
    due += ["four facts, output of %d words: %s" % case for case in ((0, "refused 14 at 0"), (20, "refused 14 at 0"), (21, "converted 21"), (23, "converted 21"))]
    due += ["hundredths, output of %d words: %s" % case for case in ((0, "refused 14 at 0"), (20, "refused 14 at 0"), (21, "converted 21"), (23, "converted 21"))]
    due += ["hundredths, risk weight 12550, output of %d words: refused 19 at 11" % room for room in (0, 20, 21, 23)]
    due += ["four facts, a word too many, output of 20 words: refused 3 at 18", "four facts, risk weight 1251, output of 20 words: refused 6 at 8"]
    due += ["thin tranche, output of %d words: %s" % case for case in ((38, "refused 14 at 0"), (39, "converted 39"))]
    right = said_of(sheets, lent, conversion)
    for name, converting in OTHER_CONVERSIONS.items():
        due.append("S-9's converter misread, %s" % name)
        met.update(due[-1:] if said_of(sheets, lent, converting) != right else [])
    check_met(due, met)


# ---- the cases of amendments


def refusal_in(step):
    """Number and place where the answer of a step is a refusal, else None."""
    return refusal_of(step.answer.split(": ")[-1])


def meeting(step):
    """Whether the opened pool of a step meets 13."""
    return "met" if refusal_of(step.lines[0][0]) else "not met"


def refused_amendment_cases(words, amendment, number, place):
    """What a refused amendment of a sheet is an example of."""
    case, length = "%d at %d" % (number, place), len(amendment)
    bad = [fault(word) for word, fault in zip(amendment, amendment_faults(words))]
    if number in (2, 5):
        yield "%s, %s" % (case, "one past the last row" if number == 2 and amendment[0] == words[words[0] + 1] + 1 else "word %d" % amendment[place])
    elif number == 6:
        yield "%s, unit %d, weight %d" % (case, in_hundredths(words), amendment[place])
    elif number == 7:
        yield "%s, %s, status %d" % (case, "re-securitisation" if words[2] else "ordinary deal", amendment[place])
    if length != AMENDMENT_SIZE:
        yield "%s, words %d" % (case, length)
    if any(bad[place + 1:]):
        yield "%s, and a bad word after it" % case


def unknown_cases(before, after, replaced_rows):
    """What an amendment is an example of, by the rows of unknown status: how they stand to 5% of all exposure before it and after it."""

    def side(rows):
        return "within" if pool_charge(rows)[1] else "above"

    yield "unknown rows %s 5%% to %s" % (side(before), side(after))
    if side(before) != side(after) and all(row[3] != 2 for row in replaced_rows):
        yield "unknown rows %s 5%% to %s, by another row" % (side(before), side(after))
    every, _, _, known, *_ = sums(after)
    if 20 * (every - known) == every:
        yield "unknown rows 5%"
    if known == 0:
        yield "no known row"


def charges_cases(before, after):
    """What the charges of a deal before and after an amendment are an example of."""
    moves = "moves" if charge_of(before) != charge_of(after) else "stays"
    if not before.diligence:
        yield "no due diligence, the charge %s" % moves
    elif by_irba(before):
        yield "SEC-IRBA, share %d, the charge %s" % (before.irb.share, moves)
    elif before.irb:
        yield "share %d, the charge %s" % (before.irb.share, moves)
    if charge_of(after)[0] == 0:
        yield "charge 0"


def row_cases(words, amendment, old, new):
    """What the row that an amendment replaces in a sheet, and the new one, are an example of. Risk weights are in hundredths."""
    number, rows, unit = amendment[0], words[words[0] + 1], in_hundredths(words)
    yield "status %d to %d" % (old[3], new[3])
    yield from ("exposure %d" % new[0], "nominal %d" % new[1], "unit %d, weight %d" % (unit, amendment[3]))
    if old == new:
        yield "the row that stands there"
    if old[::2] == new[::2] and old[3] == new[3] == 1 and old[1] != new[1]:
        yield "another nominal of a late row alone"
    if 1 < rows:
        yield "the %s row" % ("first" if number == 1 else "last" if number == rows else "middle")
    if BLOCK_ROWS < number:
        yield "a row of the second block"


def replaced_cases(before, amendment, after):
    """What an amendment that replaces a row is an example of."""
    old, new = (row_of(step.sheet, amendment[0]) for step in (before, after))
    deals = [judged(step.sheet) for step in (before, after)]
    yield from row_cases(before.sheet, amendment, old, new)
    yield from unknown_cases(deals[0].rows, deals[1].rows, (old, new))
    yield from charges_cases(*deals)
    yield "facts %d, unit %d" % (before.sheet[0], in_hundredths(before.sheet))
    yield "13 %s, then %s" % (meeting(before), meeting(after))
    yield "re-securitisation" if deals[0].resecuritised else "STC deal" if deals[0].stc else "ordinary deal"
    if before.sheet[0] > 5 and before.sheet[REPORTING_AT]:
        yield "in dates"
    if len(before.lines) == len(after.lines) and before.lines != after.lines:
        yield "other lines"


def list_cases(steps, amendments):
    """What the steps of a list of amendments are an example of: the opening, each amendment, and the list."""
    if steps[0].sheet is None:
        yield "not opened, %s" % steps[0].answer
        return
    yield "opened, 13 %s" % meeting(steps[0])
    good = [not refusal_in(step) for step in steps[1:]]
    for before, amendment, after, made in zip(steps, amendments, steps[1:], good):
        yield from replaced_cases(before, amendment, after) if made else refused_amendment_cases(before.sheet, amendment, *refusal_in(after))
    if not amendments:
        yield "no amendments"
    if (True, False, True) in zip(good, good[1:], good[2:]):
        yield "a refused one between good ones"
    numbers = [amendment[0] for amendment, made in zip(amendments, good) if made]
    if len(set(numbers)) < len(numbers):
        yield "a row that was replaced before"
    if any(step.sheet == steps[0].sheet != before.sheet for before, step in zip(steps, steps[1:])):
        yield "the sheet as it was opened"


def check_sums(name, steps, amendments):
    """Each sum is the one before less the old row's part and with the new row's."""
    for before, amendment, after in zip(steps, amendments, steps[1:]):
        if after.sheet != before.sheet:
            old, new = (sums([row_of(step.sheet, amendment[0])]) for step in (before, after))
            if after.sums != [s - o + n for s, o, n in zip(before.sums, old, new)]:
                sys.exit("%s: %s: the sums are not the corrected ones" % (name, after.answer))


# The misreadings of S-10: refusals, replacements, sums and lists otherwise.


def bad_word(faults_of=amendment_faults, of=min, placed=lambda words, amendment, place: place):
    """The refusal of a bad word by other faults, of another one of several, or at another place."""

    def refusal(words, amendment):
        faults = faults_of(words)
        bad = [place for place, (word, fault) in enumerate(zip(amendment, faults)) if fault(word)]
        if bad:
            raise Refused(faults[of(bad)](amendment[of(bad)]), placed(words, amendment, of(bad)))

    return refusal


def numbers_within(least, more):
    """The faults where a row number is at least so much, and so many more than the rows are there."""
    return lambda words: (within(least, words[words[0] + 1] + more, 2), *amendment_faults(words)[1:])


def rows_by(row_faults_of):
    """The faults where a row is otherwise judged."""
    return lambda words: (amendment_faults(words)[0], *row_faults_of(words))


def at_length(number, place_of):
    """1 or 3 at another place."""

    def refusal(words, amendment):
        if (len(amendment) > AMENDMENT_SIZE) if number == 3 else (len(amendment) < AMENDMENT_SIZE):
            raise Refused(number, place_of(amendment))

    return refusal


OTHER_AMENDMENT_REFUSALS = {
    "3 before a bad word": (further_word, first_bad_word, missing_word),
    "1 before a bad word": (missing_word, first_bad_word, further_word),
    "the last bad word decides": (bad_word(of=max), missing_word, further_word),
    "places counted from 1": (bad_word(placed=lambda words, amendment, place: place + 1), missing_word, further_word),
    "places of the row": (bad_word(placed=lambda words, amendment, place: max(place - 1, 0)), missing_word, further_word),
    "places of the sheet": (bad_word(placed=lambda words, amendment, place: row_at(words, amendment[0]) + place - 1), missing_word, further_word),
    "the last row not there": (bad_word(numbers_within(1, -1)), missing_word, further_word),
    "1250 the limit in either unit": (bad_word(rows_by(lambda words: row_faults(words[2], PERCENT))), missing_word, further_word),
    "125,000 the limit in either unit": (bad_word(rows_by(lambda words: row_faults(words[2], HUNDREDTHS))), missing_word, further_word),
    "a re-securitisation's row as an ordinary deal's": (bad_word(rows_by(lambda words: row_faults(0, UNITS[in_hundredths(words)]))), missing_word, further_word),
    "1 at 5": (first_bad_word, at_length(1, lambda amendment: AMENDMENT_SIZE), further_word),
    "1 at the last word": (first_bad_word, at_length(1, lambda amendment: max(len(amendment) - 1, 0)), further_word),
    "3 at the amendment's length": (first_bad_word, missing_word, at_length(3, len)),
    "3 at the last word": (first_bad_word, missing_word, at_length(3, lambda amendment: len(amendment) - 1)),
}


def with_words(row_of_words):
    """The misreading that the new row is another one: made of the words that stand there and of the amendment's."""

    def replacing(words, amendment):
        at = row_at(words, amendment[0])
        return replaced(words, [amendment[0], *row_of_words(words[at:at + ROW_SIZE], amendment[1:])])

    return replacing


def thin_refused(words, amendment):
    """The misreading that 13 refuses an amendment."""
    weighed(replaced(words, amendment))
    return replaced(words, amendment)


OTHER_REPLACEMENTS = {
    "exposure kept": with_words(lambda old, new: old[:1] + new[1:]),
    "nominal kept": with_words(lambda old, new: new[:1] + old[1:2] + new[2:]),
    "risk weight kept": with_words(lambda old, new: new[:2] + old[2:3] + new[3:]),
    "status kept": with_words(lambda old, new: new[:3] + old[3:]),
    "exposure and nominal exchanged": with_words(lambda old, new: [new[1], new[0], *new[2:]]),
    "rows from the last on": lambda words, amendment: replaced(words, [words[words[0] + 1] + 1 - amendment[0], *amendment[1:]]),
    "13 refuses": thin_refused,
}


def zeros(row, unit):
    """No part of any sum."""
    return [0] * 7


def part(row, unit):
    """A row's part of the seven sums."""
    return sums([row])


def corrected(taken, added):
    """The misreading that the sums are corrected by other parts of the old row and of the new one."""

    def reading(before, after, amendment):
        unit = UNITS[in_hundredths(before.sheet)]
        old, new = (row_of(step.sheet, amendment[0]) for step in (before, after))
        return after._replace(sums=[s - o + n for s, o, n in zip(before.sums, taken(old, unit), added(new, unit))])

    return reading


def corrected_by(other):
    """The same where the old row's part and the new row's are misread alike."""
    return corrected(other, other)


OTHER_READINGS = {
    "the old row not taken away": corrected(zeros, part),
    "the new row not added": corrected(part, zeros),
    "late nominal not corrected": corrected_by(lambda row, unit: part(row, unit)[:6] + [0]),
    "late nominal by exposure": corrected_by(lambda row, unit: part(row, unit)[:6] + [row[0] if row[3] == 1 else 0]),
    "weighted exposure not corrected": corrected_by(lambda row, unit: part((*row[:2], 0, row[3]), unit)),
    "weighted nominal": corrected_by(lambda row, unit: [s if i not in (2, 5) else s // row[0] * row[1] for i, s in enumerate(part(row, unit))]),
    "known sums not corrected": corrected_by(lambda row, unit: part(row, unit)[:3] + [0] * 3 + part(row, unit)[6:]),
    "known sums corrected for a row of unknown status": corrected_by(lambda row, unit: part((*row[:3], row[3] % 2), unit)),
    "the old row's known sums by the new one's status": lambda before, after, amendment: corrected(
        lambda row, unit: part((*row[:3], amendment[4]), unit), part)(before, after, amendment),
    "percent taken for hundredths": corrected_by(lambda row, unit: part((*row[:2], row[2] // (100 if unit == PERCENT else 1), row[3]), unit)),
    "hundredths taken for percent": corrected_by(lambda row, unit: part((*row[:2], row[2] * (1 if unit == PERCENT else 100), row[3]), unit)),
    "the charge of before": lambda before, after, amendment: after._replace(charge=before.charge),
    "the lines of before": lambda before, after, amendment: after._replace(lines=before.lines),
    "the charge of 01 under SEC-IRBA": lambda before, after, amendment: after._replace(charge=pool_charge(judged(after.sheet).rows)[0]),
}


def counted_from_0(words, amendment):
    """The misreading that rows are counted from 0."""
    return replaced(words, [amendment[0] + 1, *amendment[1:]])


def filled_up(before, number, amendment):
    """The misreading that missing words are zeros."""
    return amended(before, number, amendment + [0] * (AMENDMENT_SIZE - len(amendment)))


def cut_off(before, number, amendment):
    """The misreading that words after the five are passed over."""
    return amended(before, number, amendment[:AMENDMENT_SIZE])


def written_up_to_the_bad_word(before, number, amendment):
    """The misreading that the words before a bad one are written."""
    after = amended(before, number, amendment)
    place = (refusal_in(after) or (0, 0))[1]
    writing = with_words(lambda old, new: new[:place - 1] + old[place - 1:])
    return loaded(writing(before.sheet, amendment))._replace(answer=after.answer) if place > 1 else after


def by_the_opened_row(words, amendments):
    """The misreading that the part taken away is that of the row as it was opened."""

    def reading(before, after, amendment):
        old, new = (sums([row_of(sheet, amendment[0])]) for sheet in (words, after.sheet))
        return after._replace(sums=[s - o + n for s, o, n in zip(before.sums, old, new)])

    return run(words, amendments, amending=partial(amended, reading=reading))


def opened_with_further_words(words):
    """The misreading that 3 is not judged at the opening."""
    try:
        return loaded(words)
    except Refused as r:
        number, place = r.args
        if number != 3:
            raise
        return loaded(words[:place])


def each_alone(words, amendments):
    """The misreading that each amendment is made to the sheet as it was opened."""
    steps = run(words, [])
    return steps if steps[0].sheet is None else steps + [amended(steps[0], number, amendment) for number, amendment in enumerate(amendments, 1)]


def up_to_a_refusal(words, amendments):
    """The misreading that a refused amendment ends the list."""
    steps = run(words, amendments)
    for i, step in enumerate(steps):
        if refusal_in(step):
            return steps[:i + 1]
    return steps


OTHER_LISTS = {name: partial(run, amending=partial(amended, refusals=refusals)) for name, refusals in OTHER_AMENDMENT_REFUSALS.items()}
OTHER_LISTS |= {name: partial(run, amending=partial(amended, replacing=replacing)) for name, replacing in OTHER_REPLACEMENTS.items()}
OTHER_LISTS |= {name: partial(run, amending=partial(amended, reading=reading)) for name, reading in OTHER_READINGS.items()}
OTHER_LISTS |= {
    "rows counted from 0": partial(run, amending=partial(amended, refusals=(bad_word(numbers_within(0, -1)), missing_word, further_word), replacing=counted_from_0)),
    "missing words as zeros": partial(run, amending=filled_up),
    "words after the five passed over": partial(run, amending=cut_off),
    "words written before a refusal": partial(run, amending=written_up_to_the_bad_word),
    "13 judged at the opening": partial(run, opening=lambda words: weighed(words) and loaded(words)),
    "3 not judged at the opening": partial(run, opening=opened_with_further_words),
    "the row of the opened sheet taken away": by_the_opened_row,
    "each amendment of the opened sheet": each_alone,
    "a refusal ends the list": up_to_a_refusal,
}


def said_of_lists(lists, running):
    """What is said of all lists of amendments, worked out so."""
    return [[(step.answer, step.sums, step.charge, step.lines) for step in running(*parts)] for parts in lists.values()]


def check_amendments(lists, runs):
    """Every case of amendments is met, the sums are the corrected ones, a list in hundredths says what the same list in percent does, and every misreading of S-10
    answers some list otherwise."""
    met = set()
    for name, steps in runs.items():
        check_sums(name, steps, lists[name][1])
        met.update(list_cases(steps, lists[name][1]))
    said = dict(zip(lists, said_of_lists(lists, run)))
    if said["amended_percent_hundredths.txt"] != said["amended_percent.txt"]:
        sys.exit("amended_percent_hundredths.txt: not what is said of amended_percent.txt")
    most, amounts = 2**64 - 1, (1, 10**10)
    due = ["2 at 0, %s" % word for word in ("word 0", "one past the last row", "word %d" % (2**32 + 1), "word %d" % (2**62 + 1), "word %d" % most)]
    due += ["5 at %d, word %d" % case for case in product((1, 2), (0, 10**10 + 1, most))]
    due += ["6 at 3, unit %d, weight %d" % case for case in ((0, 1251), (0, most), (1, 125_001), (1, most))]
    due += ["7 at 4, ordinary deal, status %d" % status for status in (3, 4, most)] + ["7 at 4, re-securitisation, status %d" % status for status in (0, 1, 2, 4)]
    due += ["1 at %d, words %d" % (length, length) for length in range(AMENDMENT_SIZE)] + ["3 at 5, words %d" % length for length in (6, 10)]
    due += ["%d at %d, words %d" % (number, place, place + 1) for number, place in ((2, 0), (5, 1), (5, 2), (6, 3))] + ["2 at 0, words 4"]
    due += ["%d at %d, words 6" % case for case in ((2, 0), (5, 1), (5, 2), (6, 3), (7, 4))]
    due += ["%d at %d, and a bad word after it" % case for case in ((2, 0), (5, 1), (5, 2), (6, 3))]
    due += ["%s %d" % case for case in product(("exposure", "nominal"), amounts)]
    due += ["unit %d, weight %d" % case for case in ((0, 0), (0, 1250), (1, 0), (1, 1251), (1, 12_550), (1, 125_000))]
    due += ["status %d to %d" % case for case in (*product(range(3), range(3)), (3, 3))] + ["another nominal of a late row alone", "the row that stands there"]
    due += ["unknown rows %s 5%% to %s" % case for case in product(("within", "above"), repeat=2)]
    due += ["unknown rows within 5% to above, by another row", "unknown rows 5%", "no known row"]
    due += ["SEC-IRBA, share %d, the charge %s" % case for case in ((SHARE_LEAST, "moves"), (SHARE_LEAST, "stays"), (MILLION, "stays"))]
    due += ["share %d, the charge moves" % (SHARE_LEAST - 1), "no due diligence, the charge moves", "charge 0"]
    due += ["13 %s, then %s" % case for case in product(("met", "not met"), repeat=2)] + ["opened, 13 met", "opened, 13 not met", "other lines"]
    due += ["facts %d, unit %d" % case for case in ((4, 0), (5, 0), (6, 0), (7, 0), (7, 1))] + ["re-securitisation", "STC deal", "ordinary deal", "in dates"]
    due += ["the %s row" % which for which in ("first", "middle", "last")] + ["a row of the second block"]
    due += ["no amendments", "a refused one between good ones", "a row that was replaced before", "the sheet as it was opened"]
    due += ["not opened, refused %d at %d" % case for case in ((1, 0), (1, 21), (3, 22), (6, 8))]
    for name, running in OTHER_LISTS.items():
        due.append("S-10 misread, %s" % name)
        met.update(due[-1:] if said_of_lists(lists, running) != list(said.values()) else [])
    check_met(due, met)


# ---- published weights

# Annex 1 of source document 004: the example, its row, the weight and the risk-weighted amount. Its maturity of 34.5 months lies between 34 and 35.
PUBLISHED = (
    ("a", 1, 2_878, 201_460), ("a", 2, 105_694, 2_642_350), ("a", 3, 125_000, 625_000), ("b_default", 1, 5_658, 537_510), ("b_dilution", 1, 1_500, 105_000),
    ("b_dilution", 3, 125_000, 625_000), ("b_guarantee", 2, 92_547, 2_313_675),
)


def check_published(texts):
    """Each published weight and amount lies within those at 34 and at 35 months."""
    for example, row, *figures in PUBLISHED:
        ends = [texts["published_irba_%s_%d_months.txt" % (example, months)].splitlines()[row].split()[4:6] for months in (34, 35)]
        if not all(int(low) <= figure <= int(high) for low, figure, high in zip(ends[0], figures, ends[1])):
            sys.exit("published_irba_%s, row %d: %s is not within %s" % (example, row, figures, ends))


if __name__ == "__main__":
    print_figures()
    ROOMS = print_rooms()
    print_limits()
    print_pools()
    READ = print_blocks()
    LENT = print_outputs()
    SHEETS, LISTS = read_examples()
    TEXTS = print_examples(SHEETS)
    RUNS = print_lists(LISTS)
    check_tables(TEXTS)
    check_ratings()
    check_dates(SHEETS, TEXTS)
    check_same_lines(SHEETS, TEXTS)
    check_irba(SHEETS, TEXTS)
    check_ends(ROOMS)
    check_totals(READ)
    check_inferred(SHEETS, TEXTS)
    check_units(SHEETS, TEXTS)
    check_conversions(SHEETS, TEXTS, LENT)
    check_amendments(LISTS, RUNS)
    check_published(TEXTS)
