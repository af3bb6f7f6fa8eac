#!/usr/bin/env python3
"""Writes the automata of the tutorial into this folder: a protocol for mutual exclusion, its broken variant, and what it should keep.

Two processes want to be in a critical section, never both at once. Each has a flag, and there is one turn. In the right order (Peterson's
algorithm) process i raises its flag, gives the turn away, waits until the other's flag is down or the turn is its own, enters, and lowers
its flag when it leaves. In the broken order it gives the turn away first and raises its flag then.
"""
import pathlib

HERE = pathlib.Path(__file__).resolve().parent


def protocol(order):
    """The transitions of both processes together, each a step of one of them, from the first state on."""
    start = (("idle", "idle"), (0, 0), 0)  # where each process is, both flags, the turn
    moves, seen, todo = [], {start}, [start]
    while todo:
        state = todo.pop(0)
        for i in (0, 1):
            for step, after in steps(order, state, i):
                moves.append((f"{step}{i}", state, after))
                if after not in seen:
                    seen.add(after)
                    todo.append(after)
    return start, moves


def steps(order, state, i):
    places, flags, turn = state
    at = places[i]

    def go(place, flag=flags[i], to=turn):
        return (put(places, i, place), put(flags, i, flag), to)

    if at == "idle":
        yield (order[0], go("ready", 1) if order[0] == "flag" else go("ready", to=1 - i))
    elif at == "ready":
        yield (order[1], go("waits", 1) if order[1] == "flag" else go("waits", to=1 - i))
    elif at == "waits":
        if flags[1 - i] == 0 or turn == i:
            yield ("enter", go("inside"))
    else:
        yield ("leave", go("idle", 0))


def put(pair, i, item):
    return (item, pair[1]) if i == 0 else (pair[0], item)


def name(state):
    places, flags, turn = state
    return f"{places[0]}/{places[1]}/flags{flags[0]}{flags[1]}/turn{turn}"


def write(file, start, moves):
    lines = [start] + [f"{label},{source}->{target}" for label, source, target in moves]
    (HERE / file).write_text("\n".join(lines) + "\n")


def main():
    for file, order in (("peterson.ba", ("flag", "turn")), ("broken.ba", ("turn", "flag"))):
        start, moves = protocol(order)
        write(file, name(start), [(label, name(p), name(q)) for label, p, q in moves])
    # what is to be kept: after one has entered, the other does not enter before the first has left
    others = [f"{step}{i}" for step in ("flag", "turn") for i in (0, 1)]
    moves = [(label, place, place) for place in ("nobody", "in0", "in1") for label in others]
    for i in (0, 1):
        moves += [(f"enter{i}", "nobody", f"in{i}"), (f"leave{i}", f"in{i}", "nobody")]
    write("exclusion.ba", "nobody", moves)


if __name__ == "__main__":
    main()
