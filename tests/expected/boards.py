"""The rules (docs/RULES.md) on the calls that change a board, for the scripts beside this one; nothing here comes from the crates.

A board is a window with its slots beside it (lists.py). Each call answers its fields, and the board where it hands one back.
"""
from lists import (EMPTY, LARGEST, SLOTS, cell_of, ended, entries_of, fresh_window, is_first_come, is_range, is_tie_rule, is_weight, meaning,
                   ranked, score, search, standing, stored_question, visiting, with_report, with_slot)


def fresh(n):
    refusal, empty = fresh_window(n)
    return refusal, dict(empty, slots=[EMPTY] * SLOTS)


def call_set(board, slot, k, weights, loss, shake, ties):
    meant = meaning(board)
    refusal = (24 if meant is None else 13 if slot > 31 else 14 if not 1 <= k <= 16
               else 15 if not all(map(is_weight, weights)) else 30 if not (is_range(loss) and is_range(shake))
               else 33 if not is_tie_rule(ties) else 16 if meant[1][slot] else 0)
    if refusal:
        return refusal, 0, board
    rule = *weights, loss, shake, ties
    entries, taken = search(k, rule, meant[0])
    return 0, taken, with_slot(board, slot, stored_question(k, rule, entries, taken))


def slot_refusal(board, slot):
    meant = meaning(board)
    return 24 if meant is None else 13 if slot > 31 else 0 if meant[1][slot] else 17


def call_remove(board, slot):
    refusal = slot_refusal(board, slot)
    return refusal, board if refusal else with_slot(board, slot, EMPTY)


def call_read(board, slot):
    refusal = slot_refusal(board, slot)
    return refusal, [] if refusal else meaning(board)[1][slot][2]


def added(k, rule, entries, taken, number, report):
    """The list once the report was offered to it."""
    own = score(rule, report)
    if own is None or cell_of(report) not in visiting(rule)[:taken]:
        return entries
    if len(entries) == k and own < entries[-1][1] + is_first_come(rule):
        return entries
    return ranked(rule, entries + [(number, own, report[2])])[:k]


def call_enter(board, loss, shake, heat):
    meant = meaning(board)
    over = max(loss, shake, heat or 0) > LARGEST
    refusal = 24 if meant is None else 12 if over else 11 if board["entered"] == 1000000 else 0
    if refusal:
        return refusal, 0, {}, board
    reports, slots = meant
    number, report = board["entered"] + 1, (loss, shake, heat)
    reports[number] = report
    lists = [q and added(*q, number, report) for q in slots]
    gone = min(reports) if len(reports) > board["size"] else None
    reports.pop(gone, None)
    after, searched = with_report(board, number, report, len(reports)), {}
    for slot, q in enumerate(slots):
        if not q:
            continue
        entries, taken = lists[slot], q[3]
        if gone in [m for m, _, _ in entries]:
            entries, taken = search(*q[:2], reports)
            searched[slot] = taken
        after = with_slot(after, slot, stored_question(*q[:2], entries, taken))
    return 0, number, searched, after


# ---- a question and the held reports, or None where the window is unfit

def step(reports, q):
    meant = None if reports is None else standing(q, reports)
    if meant is None:
        return 24, q
    k, rule, entries, taken = meant
    if ended(*meant):
        return 25, q
    cell = entries_of(rule, {m: r for m, r in reports.items() if cell_of(r) == q["next"]})
    return 0, stored_question(k, rule, ranked(rule, entries + cell)[:k], taken + 1)


def begin(reports, q):
    meant = None if reports is None else standing(q, reports)
    if meant is None or not ended(*meant):
        return 24, q
    return 0, stored_question(*meant[:2], [], 0)
