#!/usr/bin/env python3
"""Reads networks as `benches solve` does, a blank line between them, and writes the cost of a best circulation of each, or
`unsat`: in the plainest way, which shares nothing with `flow_solver`. It begins with every arc at its floor, carries what is
too much at a node along any path to a node that lacks something, and then cancels cycles of negative cost until there is
none.

usage: plain_cost.py < crates/benches/stdin
"""
import sys


def residual(arcs, flow):
    for place, (tail, head, floor, room, cost) in enumerate(arcs):
        if flow[place] < room:
            yield place, 1, tail, head, room - flow[place], cost
        if flow[place] > floor:
            yield place, -1, head, tail, flow[place] - floor, -cost


def carry(flow, steps, amount):
    for place, sign, *_ in steps:
        flow[place] += sign * amount


def back_to(reached, node, until):
    steps = []
    while True:
        step = reached[node]
        steps.append(step)
        node = step[2]
        if node == until:
            return steps


def path(arcs, flow, source, lacking):
    reached, waiting = {source: None}, [source]
    for node in waiting:
        if node in lacking:
            return node, back_to(reached, node, source)
        for step in residual(arcs, flow):
            if step[2] == node and step[3] not in reached:
                reached[step[3]] = step
                waiting.append(step[3])
    return None


def balance(nodes, arcs, flow):
    excess = [0] * nodes
    for amount, (tail, head, *_) in zip(flow, arcs):
        excess[tail] -= amount
        excess[head] += amount
    for source in range(nodes):
        while excess[source] > 0:
            found = path(arcs, flow, source, {node for node in range(nodes) if excess[node] < 0})
            if found is None:
                return False
            node, steps = found
            amount = min([excess[source], -excess[node]] + [step[4] for step in steps])
            carry(flow, steps, amount)
            excess[source] -= amount
            excess[node] += amount
    return True


def negative_cycle(nodes, arcs, flow):
    """Bellman and Ford: a node whose distance still falls in the last round stands behind a cycle of negative cost."""
    distance, reached, last = [0] * nodes, [None] * nodes, None
    for _ in range(nodes):
        last = None
        for step in residual(arcs, flow):
            if distance[step[2]] + step[5] < distance[step[3]]:
                distance[step[3]] = distance[step[2]] + step[5]
                reached[step[3]] = step
                last = step[3]
    if last is None:
        return None
    for _ in range(nodes):
        last = reached[last][2]
    return back_to(reached, last, last)


def best_cost(nodes, arcs):
    flow = [arc[2] for arc in arcs]
    if not balance(nodes, arcs, flow):
        return "unsat"
    while (cycle := negative_cycle(nodes, arcs, flow)) is not None:
        carry(flow, cycle, min(step[4] for step in cycle))
    return sum(amount * arc[4] for amount, arc in zip(flow, arcs))


for part in sys.stdin.read().strip().split("\n\n"):
    words = [int(word) for word in part.split()]
    print(best_cost(words[0], [tuple(words[at : at + 5]) for at in range(2, 2 + 5 * words[1], 5)]))
