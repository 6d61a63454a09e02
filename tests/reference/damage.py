"""Damaged pairs of graph form and answer form: seeded edits of a good pair, from one byte to whole records.

    damaged(rng, graph, answer) -> (name, graph form, answer form)    some fault, or none by chance
    every_single(graph, answer) -> the same, for a fixed list of single faults, every truncation among them
"""

from forms import MAX_MARK, MAX_WEIGHT, encode_answer, encode_graph

BYTES = (0, 1, 2, 3, 4, 16, 17, 63, 64, 65, 127, 128, 255)


def with_length(data):
    return len(data).to_bytes(4, "big") + bytes(data[4:]) if len(data) >= 4 else bytes(data)


def edited(rng, data, times):
    data = bytearray(data)
    for _ in range(times):
        if data:
            at = rng.randrange(len(data))
            data[at] = rng.choice(BYTES + (data[at] ^ 1, data[at] ^ 128, (data[at] + 1) % 256, rng.randrange(256)))
    return bytes(data)


def change_marks(rng, answer):
    marks = [list(pair) for pair in answer.marks]
    v, side = rng.randrange(len(marks)), rng.randrange(2)
    marks[v][side] = rng.choice((marks[v][side] + 1, marks[v][side] - 1, 0, MAX_MARK, -MAX_MARK, MAX_MARK + 1, -MAX_MARK - 1))
    if rng.random() < 0.3:  # both marks of a vertex together: slacks of arcs change, that of the vertex does not
        marks[v] = [marks[v][0] + 1, marks[v][1] + 1]
    return answer._replace(marks=[tuple(max(-2**31, min(2**31 - 1, m)) for m in pair) for pair in marks])


def change_weights(rng, answer):
    paths = list(answer.paths)
    if paths:
        p = rng.randrange(len(paths))
        weight = rng.choice((paths[p][0] + 1, paths[p][0] - 1, 0, 1, MAX_WEIGHT, MAX_WEIGHT + 1, 2**32 - 1))
        paths[p] = (weight, paths[p][1])
    return answer._replace(paths=paths)


def change_paths(rng, answer, graph):
    paths = list(answer.paths)
    if not paths:
        return answer._replace(paths=[(1, (0,))])
    p = rng.randrange(len(paths))
    weight, path = paths[p]
    way = rng.randrange(7)
    if way == 0:
        del paths[p]
    elif way == 1:
        paths.insert(p, paths[p])
    elif way == 2:
        q = rng.randrange(len(paths))
        paths[p], paths[q] = paths[q], paths[p]
    elif way == 3:
        paths[p] = (weight, path[:-1] or (0,))
    elif way == 4:
        paths[p] = (weight, path[1:] or (0,))
    elif way == 5:
        i = rng.randrange(len(path))
        paths[p] = (weight, path[:i] + (rng.choice((path[i] ^ 1, 0, len(graph.vertices), 255)),) + path[i + 1:])
    else:
        i = rng.randrange(len(path))
        paths[p] = (weight, path[:i] + path[i + 1:] or (0,))
    return answer._replace(paths=paths)


def priced_anew(graph, answer):
    """The same paths with the price that they have, where they have one; then 20 does not hide what comes behind it."""
    cost_of = {(tail, head): cost for tail, head, cost, _ in graph.arcs}
    price = 0
    for weight, path in answer.paths:
        price += weight * (graph.opening + sum(cost_of.get(pair, 0) for pair in zip(path, path[1:])))
    return answer._replace(price=price % 2**64)


def change_graph(rng, graph):
    """The graph with one number changed: the answer is for another."""
    vertices, arcs, reads, opening = list(graph.vertices), list(graph.arcs), list(graph.reads), graph.opening
    way = rng.randrange(6)
    if way == 0:
        v = rng.randrange(len(vertices))
        vertices[v] = (vertices[v][0], vertices[v][1] + rng.choice((1, 0 if vertices[v][1] == 0 else -1)))
    elif way == 1:
        v = rng.randrange(len(vertices))
        vertices[v] = (vertices[v][0] ^ rng.choice((1, 2, 3)), vertices[v][1])
    elif way == 2 and arcs:
        a = rng.randrange(len(arcs))
        tail, head, cost, demand = arcs[a]
        arcs[a] = (tail, head, cost + rng.choice((1, 0 if cost == 0 else -1)), demand)
    elif way == 3 and arcs:
        a = rng.randrange(len(arcs))
        tail, head, cost, demand = arcs[a]
        arcs[a] = (tail, head, cost, demand + 1)
    elif way == 4 and reads:
        del reads[rng.randrange(len(reads))]
    else:
        opening += rng.choice((1, 0 if opening == 0 else -1))
    return graph._replace(opening=opening, vertices=vertices, arcs=arcs, reads=reads)


def damaged(rng, graph, answer):
    way = rng.randrange(10)
    g, a = encode_graph(graph), encode_answer(answer)
    if way == 0:
        return "graph bytes edited", edited(rng, g, rng.randrange(1, 3)), a
    if way == 1:
        return "answer bytes edited", g, edited(rng, a, rng.randrange(1, 4))
    if way == 2:
        cut = a[:rng.randrange(len(a) + 1)]
        return "answer cut", g, with_length(cut) if rng.random() < 0.8 else cut
    if way == 3:
        return "answer extended", g, with_length(a + bytes(rng.choice(BYTES) for _ in range(rng.randrange(1, 8))))
    if way == 4:
        price = rng.choice((answer.price + 1, answer.price ^ 2**32, answer.price ^ 2**63, 0, 2**64 - 1))
        return "price changed", g, encode_answer(answer._replace(price=price))
    if way == 5:
        return "graph changed", encode_graph(change_graph(rng, graph)), a
    changed = answer
    for _ in range(rng.choice((1, 1, 2))):
        which = rng.randrange(3)
        if which == 0:
            changed = change_marks(rng, changed)
        elif which == 1:
            changed = change_weights(rng, changed)
        else:
            changed = change_paths(rng, changed, graph)
    changed = changed._replace(paths=[(weight % 2**32, path) for weight, path in changed.paths])
    if rng.random() < 0.8:
        changed = priced_anew(graph, changed)
    return "answer changed", g, encode_answer(changed)


def every_single(graph, answer):
    g, a = encode_graph(graph), encode_answer(answer)
    for length in range(len(a)):
        yield f"answer cut to {length}", g, a[:length]
        yield f"answer cut to {length}, length word corrected", g, with_length(a[:length])
    for length in range(len(g)):
        yield f"graph cut to {length}, length word corrected", with_length(g[:length]), a
    for at in range(len(a)):
        for value in (0, 1, 2, a[at] ^ 1, 64, 128, 255):
            yield f"answer byte {at} is {value}", g, a[:at] + bytes([value]) + a[at + 1:]
    for at in range(len(g)):
        for value in (0, 1, 3, 4, g[at] ^ 1, 64, 255):
            yield f"graph byte {at} is {value}", g[:at] + bytes([value]) + g[at + 1:], a
