"""Lawful moves of positions, as tools/show_tree and the page write them without a mark; written by hand."""

# The other knight of the fourth position is pinned.
MOVES = """
1k4/6/6/6/R4R/K5 w: a2c2 Rac2, f2c2 Rfc2, a2a3 Ra3
4k1/1R4/6/6/1R4/K5 w: b5b3 R5b3, b2b3 R2b3
6/5k/1Q4/6/1Q1Q2/K5 w: b2d4 Qb2d4, d2d4 Qdd4, b4d4 Q4d4
k5/6/6/6/4N1/KN3r w: e2c3 Nc3
k5/3n2/4P1/6/6/K5 w: e4d5 exd5
5k/6/6/4p1/3N2/K5 b: e3d2 exd2
3n1k/2P3/6/6/6/K5 w: c5d6n cxd6=N
3b1/4P/1k3/5/K4 w: e4e5b e5=B
k4/2b2/5/1r2N/4K b: b2e2 Rxe2
"""
LINES = [line.split(": ") for line in MOVES.strip().split("\n")]
SHORT = [(fen, *it.split(" ")) for fen, moves in LINES for it in moves.split(", ")]
