"""The graphs that the scope document names: D, the single vertex, L and X, with covers and marks of lowest price."""

from forms import Answer, Graph

D = Graph(10, [(1, 1), (0, 1), (0, 1), (2, 1)], [(0, 1, 2, 0), (0, 2, 3, 0), (1, 3, 4, 0), (2, 3, 5, 0)], [])
D_MARKS = [(10, 10), (12, -4), (13, -5), (0, 0)]
D_ANSWER = Answer(34, D_MARKS, [(1, (0, 1, 3)), (1, (0, 2, 3))])

D_WITH_READ = D._replace(reads=[(0, 1, 3)])

D_WITH_3 = D._replace(arcs=[(0, 1, 2, 3)] + D.arcs[1:])
D_WITH_3_ANSWER = Answer(66, [(10, 10), (-4, -4), (13, -5), (0, 0)], [(3, (0, 1, 3)), (1, (0, 2, 3))])

ONE = Graph(10, [(3, 1)], [], [])
ONE_ANSWER = Answer(10, [(10, 0)], [(1, (0,))])
NONE_ASKED = Graph(10, [(3, 0)], [], [])
NONE_ASKED_ANSWER = Answer(0, [(10, 0)], [])
NO_END = Graph(10, [(1, 1)], [], [])

L = Graph(10, [(1, 1), (0, 1), (1, 1), (2, 1), (2, 1)], [(0, 1, 1, 0), (1, 2, 1, 0), (2, 3, 1, 0), (2, 4, 1, 0)],
          [(0, 1, 2), (2, 4), (1, 2, 3)])
L_ANSWER = Answer(24, [(10, 10), (10, 10), (10, 10), (0, 0), (0, 0)], [(1, (0, 1, 2, 3)), (1, (2, 4))])

X = Graph(10, [(1, 1), (1, 1), (0, 1), (2, 1), (2, 1)], [(0, 2, 1, 0), (1, 2, 1, 0), (2, 3, 1, 0), (2, 4, 1, 0)],
          [(0, 2, 3), (1, 2, 4)])
X_ANSWER = Answer(24, [(10, 10), (10, 10), (10, 10), (0, 0), (0, 0)], [(1, (0, 2, 3)), (1, (1, 2, 4))])
