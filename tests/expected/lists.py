"""The rules (docs/RULES.md) on windows and questions, for the scripts beside this one; nothing here comes from the crates.

A window and a question are kept as they are stored; a call reads what that means, works on the meaning and stores it again. Stored
are, for the window, N, the last number, how many are held, and 1,024 rows of which report m has the row (m - 1) mod N; for a question
k, the weights, the two ranges, the tie rule, 16 lines, how many of them are used, and the first cell that is not marked, 256 for none.
What is unused is 0. A question's rule is its weights, its ranges and its tie rule: (a, b, c, loss, shake, ties), a range being its two
ends, and ties 0 for newest and 1 for first-come. A report is its loss, its shake and its heat, None where it has none; so has a row,
behind its number; and a line is a number, a score and a heat or None.
"""
from functools import lru_cache

LINES, ROWS, SLOTS, CELLS = 16, 1024, 32, 256
LARGEST = 4095
WHOLE = (0, LARGEST)
NO_LINE, NO_ROW = (0, 0, None), (0, 0, 0, None)
EMPTY = dict(k=0, a=0, b=0, c=0, loss=(0, 0), shake=(0, 0), ties=0, len=0, next=0, lines=[NO_LINE] * LINES)


# ---- the rules

def score(rule, report):
    """The report's score, None where it does not count."""
    a, b, c, *ranges, _ = rule
    loss, shake, heat = report
    counts = all(low <= value <= high for (low, high), value in zip(ranges, report)) and (c == 0 or heat is not None)
    return a * loss + b * shake + (c * heat if c else 0) if counts else None


def entries_of(rule, reports):
    """What a list can name of them: (number, score, heat or None)."""
    scores = {m: score(rule, report) for m, report in reports.items()}
    return [(m, s, reports[m][2]) for m, s in scores.items() if s is not None]


def values_in(ends, index):
    """The values of a range that lie in a column or row, rising."""
    return range(max(ends[0], 256 * index), min(ends[1], 256 * index + 255) + 1)


@lru_cache(None)
def best_possible(rule, cell):
    """A cell's best possible score, None where it holds no value inside both ranges."""
    a, b, c, loss, shake, _ = rule
    row, column = divmod(cell, 16)
    sides = [(a, values_in(loss, column)), (b, values_in(shake, row)), (c, range(LARGEST + 1))]
    if not all(values for _, values in sides):
        return None
    return sum(weight * values[-1 if weight > 0 else 0] for weight, values in sides)


@lru_cache(None)
def visiting(rule):
    cells = [cell for cell in range(CELLS) if best_possible(rule, cell) is not None]
    return sorted(cells, key=lambda cell: (-best_possible(rule, cell), cell))


def cell_of(report):
    return 16 * (report[1] // 256) + report[0] // 256


def is_first_come(rule):
    return rule[-1] == 1


def ranked(rule, entries):
    """Entries, the greatest score first, then the greatest number, or under first-come the smallest."""
    return sorted(set(entries), key=lambda e: (-e[1], e[0] if is_first_come(rule) else -e[0]))


def ended(k, rule, entries, taken):
    """Whether a search with this list ends after so many steps."""
    order = visiting(rule)
    return taken == len(order) or len(entries) == k and best_possible(rule, order[taken]) < entries[-1][1]


def search(k, rule, reports):
    """The list, and how many cells were taken."""
    cells, entries, taken = {}, [], 0
    for entry in entries_of(rule, reports):
        cells.setdefault(cell_of(reports[entry[0]]), []).append(entry)
    while not ended(k, rule, entries, taken):
        entries = ranked(rule, entries + cells.get(visiting(rule)[taken], []))[:k]
        taken += 1
    return entries, taken


# ---- what is stored, and what it means

def rule_of(q):
    return q["a"], q["b"], q["c"], q["loss"], q["shake"], q["ties"]


def marked(q):
    """The marked cells: those of the order up to the next one, or all where that isn't in it."""
    order = visiting(rule_of(q))
    return order[:order.index(q["next"])] if q["next"] in order else order


def stored_question(k, rule, entries, taken):
    a, b, c, loss, shake, ties = rule
    return dict(k=k, a=a, b=b, c=c, loss=loss, shake=shake, ties=ties, len=len(entries), next=(visiting(rule) + [CELLS])[taken],
                lines=entries + [NO_LINE] * (LINES - len(entries)))


def is_weight(w):
    return -1000 <= w <= 1000


def is_range(ends):
    return ends[0] <= ends[1] <= LARGEST


def is_tie_rule(ties):
    return ties in (0, 1)


def standing(q, reports):
    """(k, rule, list, how many cells are marked), None where it is unfit for a step."""
    k, rule = q["k"], rule_of(q)
    *weights, loss, shake, ties = rule
    if not (1 <= k <= 16 and all(map(is_weight, weights)) and is_range(loss) and is_range(shake) and is_tie_rule(ties)):
        return None
    if q["next"] != CELLS and q["next"] not in visiting(rule):
        return None
    entries, rest = q["lines"][:q["len"]], q["lines"][q["len"]:]
    if q["len"] > min(k, len(reports)) or any(line != NO_LINE for line in rest):
        return None
    if any(m not in reports or (s, heat) != (score(rule, reports[m]), reports[m][2]) for m, s, heat in entries):
        return None
    if entries != ranked(rule, entries):
        return None
    return k, rule, entries, len(marked(q))


def question(q, reports):
    """The same, None where it is unfit for every other call: its search has not ended."""
    found = standing(q, reports)
    return found if found and ended(*found) else None


def window(w):
    """The held reports by number, None where it is unfit."""
    n, last, held = w["size"], w["entered"], w["held"]
    if not (1 <= n <= 1024 and last <= 1000000 and held <= min(n, last)):
        return None
    rows = {(m - 1) % n: m for m in range(last - held + 1, last + 1)}
    for i, (m, loss, shake, heat) in enumerate(w["rows"]):
        if i in rows and (m != rows[i] or loss > LARGEST or shake > LARGEST) or i not in rows and (m, loss, shake, heat) != NO_ROW:
            return None
    return {m: w["rows"][i][1:] for i, m in sorted(rows.items(), key=lambda p: p[1])}


def meaning(board):
    """(held reports, questions or None by slot), None where it is unfit."""
    reports = window(board)
    if reports is None:
        return None
    slots = [None if q == EMPTY else question(q, reports) or 0 for q in board["slots"]]
    return None if 0 in slots else (reports, slots)


def with_report(board, number, report, held):
    rows = list(board["rows"])
    rows[(number - 1) % board["size"]] = (number, *report)
    return dict(board, rows=rows, entered=number, held=held)


def with_slot(board, slot, q):
    slots = list(board["slots"])
    slots[slot] = q
    return dict(board, slots=slots)


def fresh_window(n):
    bad = not 1 <= n <= 1024
    return (18 if bad else 0), dict(size=0 if bad else n, entered=0, held=0, rows=[NO_ROW] * ROWS)


def with_counts(w, size, entered, held):
    return dict(w, size=size, entered=entered, held=held)


def kept(heat, before):
    """A heat that is said, or else the one before, or none."""
    return before[-1] if heat is None else heat


def with_row(w, at, number, loss, shake, heat):
    rows = w["rows"]
    return dict(w, rows=rows[:at] + [(number, loss, shake, kept(heat, rows[at]))] + rows[at + 1:])


def with_line(q, at, number, own, heat):
    lines = q["lines"]
    return dict(q, lines=lines[:at] + [(number, own, kept(heat, lines[at]))] + lines[at + 1:])
