#!/usr/bin/env python3
"""Checks a certificate without the kit, in plain Python.

Reads a certificate on standard input and writes the line, and ends with the status, of `matcher check`. It was written
from docs/FORMATS.md alone, so that authors and reviewers can check a published lottery with nothing but this file.

usage: python3 checker/check.py < CERTIFICATE
"""

import sys
from collections import Counter

TICKETS = 10_000
MOST_LINE = 2_097_152
MOST_SCORE = 8_000_000_000
MOST_PRICE = 10**16
MOST_TOTAL = 10**18
MOST_AMOUNT = 2**64 - 1

VALID, BROKEN, REFUSED = 0, 1, 6

# Unicode's White_Space, as far as it isn't a control character, which no id holds anyway.
WHITE_SPACE = {0x20, 0xA0, 0x1680, *range(0x2000, 0x200B), 0x2028, 0x2029, 0x202F, 0x205F, 0x3000}


class Wrong(Exception):
    """A line may not stand where it stands: the first code that applies to it."""


class Refused(Exception):
    """The input is no certificate: what the line of the refusal says of it."""


def require(holds, code):
    if not holds:
        raise Wrong(code)


# ---- lines, fields and numbers


class Lines:
    """The lines of a text, one after another."""

    def __init__(self, text):
        self.text = text
        self.at = 0
        self.number = 0

    def next(self):
        """The line that is due."""
        end = self.text.find(b"\n", self.at)
        ended = end < 0
        if ended:
            end = len(self.text)
        require(end - self.at <= MOST_LINE, "too-long")
        if ended:
            raise Refused("truncated")
        line = self.text[self.at : end]
        self.at = end + 1
        try:
            return line.decode("utf-8")
        except UnicodeDecodeError:
            raise Wrong("not-utf8") from None

    def read(self, form):
        """What a form makes of the line that is due."""
        self.number += 1
        try:
            return form(self.next())
        except Wrong as wrong:
            raise Refused(f"line {self.number} {wrong}") from None

    def fixed(self, *lines):
        """One of these lines."""

        def form(line):
            require(line in lines, "form")
            return line

        return self.read(form)

    def counted(self, word, least, greatest):
        """The number of a line of a word and a number."""

        def form(line):
            fields = line.split(" ")
            require(len(fields) == 2 and fields[0] == word, "form")
            [value] = numbers(fields[1:])
            require(least <= value <= greatest, "range")
            return value

        return self.read(form)

    def section(self, word, least, greatest, item):
        """The items of a section: a line with their number, and a line for each."""
        count = self.counted(word, least, greatest)
        items = []
        for _ in range(count):
            items.append(self.read(lambda line: item(line, items)))
        return items

    def end(self):
        if self.at < len(self.text):
            raise Refused("trailing")


def number(text):
    require(text.isascii() and text.isdigit() and (text == "0" or text[0] != "0"), "number")
    # (a text of more digits than any limit has is out of range, and Python would refuse to read a very long one)
    return int(text) if len(text) <= 20 else 10**20


def numbers(fields):
    return [number(field) for field in fields]


def signed(text):
    if text.startswith("-"):
        require(text != "-0", "number")
        return -number(text[1:])
    return number(text)


def ascend(items):
    return all(a < b for a, b in zip(items, items[1:]))


def named(text, forbidden):
    """The bytes of an id."""
    value = text.encode("utf-8")
    require(1 <= len(value) <= 128, "id")
    for char in text:
        code = ord(char)
        require(code > 0x1F and not 0x7F <= code <= 0x9F, "id")
        require(code not in WHITE_SPACE and char not in forbidden, "id")
    return value


def identifier(text):
    return named(text, ',"')


def institution(text):
    return named(text, ',";')


# ---- the rules


class Rules:
    """The rules of an edition, by places."""

    def __init__(self, limit, papers, reviewers, pairs):
        self.limit = limit
        self.papers = papers  # (id, demand)
        self.reviewers = reviewers  # (id, least, greatest, institution or None)
        self.pairs = pairs  # (paper, reviewer, score, floor, cap)
        keys = [(p, reviewers[r][3]) for p, r, *_ in pairs]
        self.groups = sorted({key for key in keys if key[1] is not None})
        place = {key: g for g, key in enumerate(self.groups)}
        self.group_of = [place.get(key) for key in keys]
        self.locked = [e for e, pair in enumerate(pairs) if pair[3] == TICKETS]


def read_paper(line, before):
    fields = line.split(" ")
    require(len(fields) == 2, "form")
    demand = number(fields[1])
    require(demand <= 100 and sum(d for _, d in before) + demand <= 4500, "range")
    name = identifier(fields[0])
    require(not before or before[-1][0] < name, "order")
    return (name, demand)


def read_reviewer(line, before):
    fields = line.split(" ")
    require(len(fields) in (3, 4), "form")
    least, greatest = numbers(fields[1:3])
    require(least <= greatest <= 1500, "range")
    name = identifier(fields[0])
    home = institution(fields[3]) if len(fields) == 4 else None
    require(not before or before[-1][0] < name, "order")
    return (name, least, greatest, home)


def read_pair(papers, reviewers):
    def read(line, before):
        fields = line.split(" ")
        require(len(fields) == 5, "form")
        paper, reviewer = numbers(fields[:2])
        score = signed(fields[2])
        floor, cap = numbers(fields[3:])
        require(paper < len(papers) and reviewer < len(reviewers) and abs(score) <= MOST_SCORE, "range")
        require(floor in (0, TICKETS) and floor <= cap <= TICKETS, "range")
        require(not before or before[-1][:2] < (paper, reviewer), "order")
        return (paper, reviewer, score, floor, cap)

    return read


def read_rules(lines):
    lines.fixed("rules 1")
    lines.fixed("tickets 10000")
    limit = lines.counted("limit", 1, 1500)
    papers = lines.section("papers", 0, 1500, read_paper)
    reviewers = lines.section("reviewers", 0, 1500, read_reviewer)
    pairs = lines.section("pairs", 0, 250_000, read_pair(papers, reviewers))
    lines.fixed("end rules")
    return Rules(limit, papers, reviewers, pairs)


# ---- the answer


def read_places(word, count):
    """The ascending places behind a word, of which there may be none."""

    def read(line):
        fields = line.split(" ")
        require(fields[0] == word, "form")
        places = numbers(fields[1:])
        require(all(place < count for place in places), "range")
        require(ascend(places), "order")
        return places

    return read


def read_piece(pairs):
    def read(line, before):
        weight, *places = numbers(line.split(" "))
        require(1 <= weight <= TICKETS and all(place < pairs for place in places), "range")
        require(ascend(places) and (not before or before[-1][1] < places), "order")
        return (weight, places)

    return read


def read_total(line):
    fields = line.split(" ")
    require(len(fields) == 2 and fields[0] == "total", "form")
    total = signed(fields[1])
    require(abs(total) <= MOST_TOTAL, "range")
    return total


def read_price(line, _):
    require(" " not in line, "form")
    price = signed(line)
    require(abs(price) <= MOST_PRICE, "range")
    return price


def read_share(line, _):
    require(" " not in line, "form")
    share = number(line)
    require(share <= TICKETS, "range")
    return share


def read_level(mode):
    """The threshold of a lottery: a score, or the word that stands in its place."""

    def read(line):
        fields = line.split(" ")
        require(len(fields) == 2 and fields[0] == "threshold", "form")
        if fields[1] == ("none" if mode == "mode whole" else "free"):
            return fields[1]
        try:
            score = signed(fields[1])
        except Wrong:
            score = MOST_SCORE + 1
        require(mode == "mode fair" and abs(score) <= MOST_SCORE, "form")
        return score

    return read


class Cut:
    """Marked papers, groups and reviewers, and the side on which they stand."""

    def __init__(self, rules, lines, side):
        self.side = side
        self.papers = set(lines.read(read_places("marked-papers", len(rules.papers))))
        self.groups = set(lines.read(read_places("marked-groups", len(rules.groups))))
        self.reviewers = set(lines.read(read_places("marked-reviewers", len(rules.reviewers))))


SIDES = ("cut into", "cut out-of")


def read_lottery(rules, lines):
    mode = lines.fixed("mode whole", "mode fair")
    level = lines.read(read_level(mode))
    total = lines.read(read_total)

    def prices(word, count):
        return lines.section(word, count, count, read_price)

    papers = prices("paper-prices", len(rules.papers))
    groups = prices("group-prices", len(rules.groups))
    reviewers = prices("reviewer-prices", len(rules.reviewers))
    count = len(rules.pairs)
    shares = lines.section("shares", count, count, read_share)
    cut = None
    if isinstance(level, str):
        lines.fixed("cut none")
    else:
        cut = Cut(rules, lines, lines.fixed(*SIDES))
    pieces = lines.section("pieces", 0, TICKETS, read_piece(count))
    lines.fixed("end lottery")
    return mode, level, total, (papers, groups, reviewers), shares, cut, pieces


def read_infeasible(rules, lines):
    lines.fixed("mode whole", "mode fair")
    cut = Cut(rules, lines, lines.fixed(*SIDES))
    need = lines.counted("need", 0, MOST_AMOUNT)
    room = lines.counted("room", 0, MOST_AMOUNT)
    lines.fixed("end infeasible")
    return cut, need, room


# ---- the clauses


def broken_piece(rules, pieces):
    """The first of the clauses 2 to 5 that a piece breaks."""
    for k, (_, places) in enumerate(pieces):
        counts = Counter(rules.pairs[e][0] for e in places)
        for p, (_, demand) in enumerate(rules.papers):
            if counts[p] != demand:
                return f"broken 2 piece {k} paper {p} count {counts[p]}"
    for k, (_, places) in enumerate(pieces):
        counts = Counter(rules.pairs[e][1] for e in places)
        for r, (_, least, greatest, _) in enumerate(rules.reviewers):
            if not least <= counts[r] <= greatest:
                return f"broken 3 piece {k} reviewer {r} count {counts[r]}"
    for k, (_, places) in enumerate(pieces):
        counts = Counter(rules.group_of[e] for e in places)
        for g in range(len(rules.groups)):
            if counts[g] > rules.limit:
                return f"broken 4 piece {k} group {g} count {counts[g]}"
    for k, (_, places) in enumerate(pieces):
        held = set(places)
        for e in rules.locked:
            if e not in held:
                return f"broken 5 piece {k} pair {e}"
    return None


def kept_pairs(rules, keeps):
    """The pairs that take part, with their groups: those that are locked, and those with a score that is kept."""
    return [(pair, g) for pair, g in zip(rules.pairs, rules.group_of) if pair[3] == TICKETS or keeps(pair[2])]


def bound_of(rules, keeps, prices):
    papers, groups, reviewers = prices
    bound = sum(demand * a for (_, demand), a in zip(rules.papers, papers))
    bound += sum(rules.limit * b for b in groups if b > 0)
    bound += sum(max(least * c, greatest * c) for (_, least, greatest, _), c in zip(rules.reviewers, reviewers))
    bound *= TICKETS
    for (p, r, score, floor, cap), g in kept_pairs(rules, keeps):
        rest = score - papers[p] - reviewers[r] - (0 if g is None else groups[g])
        bound += max(floor * rest, cap * rest)
    return bound


def broken_level(rules, level, shares, cut):
    """The first of the clauses 8 to 10 that a level breaks."""
    open_pairs = [(e, pair[2]) for e, pair in enumerate(rules.pairs) if pair[3] != TICKETS]
    for e, score in open_pairs:
        if shares[e] > 0 and (level == "free" or (cut and score < level)):
            return f"broken 8 pair {e}"
    if not cut:
        return None
    if all(score != level for _, score in open_pairs):
        return f"broken 9 score {level}"
    need, room = sums_of_cut(rules, lambda score: score > level, cut)
    if need <= room:
        return f"broken 10 need {need} room {room}"
    return None


def judge_lottery(rules, answer):
    mode, level, total, prices, shares, cut, pieces = answer
    weights = sum(weight for weight, _ in pieces)
    if weights != TICKETS:
        return f"broken 1 sum {weights}"
    broken = broken_piece(rules, pieces)
    if broken:
        return broken
    times = Counter()
    for weight, places in pieces:
        for e in places:
            times[e] += weight
    for e, share in enumerate(shares):
        if times[e] != share:
            return f"broken 6 pair {e} printed {share} counted {times[e]}"
    for e, pair in enumerate(rules.pairs):
        if times[e] > pair[4]:
            return f"broken 7 pair {e}"
    broken = broken_level(rules, level, shares, cut)
    if broken:
        return broken
    counted = sum(share * pair[2] for share, pair in zip(shares, rules.pairs))
    if counted != total:
        return f"broken 11 printed {total} counted {counted}"
    bound = bound_of(rules, lambda score: not cut or score >= level, prices)
    if bound != total:
        return f"broken 12 total {total} bound {bound}"
    return f"valid {mode[5:]} threshold {level} total {total} pieces {len(pieces)}"


def sums_of_cut(rules, keeps, cut):
    """The need and the room of a cut, over the pairs that take part."""
    papers, groups, reviewers = cut.papers, cut.groups, cut.reviewers
    demand = TICKETS * sum(rules.papers[p][1] for p in papers)
    entering = leaving = entering_floors = leaving_floors = 0
    for (p, r, _, floor, cap), g in kept_pairs(rules, keeps):
        tail = p in papers if g is None else g in groups
        head = r in reviewers
        if head and not tail:
            entering, entering_floors = entering + cap, entering_floors + floor
        if tail and not head:
            leaving, leaving_floors = leaving + cap, leaving_floors + floor
    of_paper = [p in papers for p, _ in rules.groups]
    if cut.side == "cut into":
        room = TICKETS * sum(rules.reviewers[r][2] for r in reviewers) + leaving
        room += TICKETS * rules.limit * sum(1 for g, marked in enumerate(of_paper) if marked and g not in groups)
        return demand + entering_floors, room
    need = TICKETS * sum(rules.reviewers[r][1] for r in reviewers) + leaving_floors
    room = demand + entering
    room += TICKETS * rules.limit * sum(1 for g, marked in enumerate(of_paper) if not marked and g in groups)
    return need, room


def judge_infeasible(rules, answer):
    cut, printed_need, printed_room = answer
    need, room = sums_of_cut(rules, lambda _: True, cut)
    if (need, room) != (printed_need, printed_room):
        return f"broken 13 need {need} room {room}"
    if need <= room:
        return f"broken 14 need {need} room {room}"
    return f"valid infeasible need {need} room {room}"


def check(text):
    """The line and the status for the bytes of a certificate."""
    try:
        lines = Lines(text)
        rules = read_rules(lines)
        lottery = lines.fixed("lottery 1", "infeasible 1") == "lottery 1"
        answer = (read_lottery if lottery else read_infeasible)(rules, lines)
        lines.end()
    except Refused as refused:
        return f"refused {refused}", REFUSED
    line = (judge_lottery if lottery else judge_infeasible)(rules, answer)
    return line, VALID if line.startswith("valid") else BROKEN


def main():
    line, status = check(sys.stdin.buffer.read())
    print(line)
    return status


if __name__ == "__main__":
    sys.exit(main())
