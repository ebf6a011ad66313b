// Problems to begin with. Each was solved by the program; the limit is enough for its goal.
export const PROBLEMS = [
  { name: "Rook and king: a waiting move", limit: 3, goal: "mate", fen: "k5/6/2K3/6/6/1R4 w" },
  { name: "The same, where stalemate will do", limit: 1, goal: "stale", fen: "k5/6/2K3/6/6/1R4 w" },
  { name: "One pawn, two keys", limit: 1, goal: "mate", fen: "k4/2P2/1K3/5/5 w" },
  { name: "The rook gives mate", limit: 1, goal: "mate", fen: "k5/6/1K4/6/6/5R w" },
  { name: "Three moves, Gardner", limit: 5, goal: "mate", fen: "2qK1/3B1/1k1NQ/3b1/r1Q2 w" },
  { name: "Three moves, Los Alamos", limit: 5, goal: "mate", fen: "K4N/1R1N2/N5/5k/6/3N2 w" },
  { name: "Black mates in three moves", limit: 5, goal: "mate", fen: "4r/P1pk1/B1N2/3b1/3K1 b" },
  { name: "Queen and rook against a king", limit: 5, goal: "mate", fen: "5k/3K2/6/6/1q4/r5 b" },
  { name: "Four moves: the rook takes its time", limit: 7, goal: "mate", fen: "1K1k1/qR3/5/5/5 w" },
  { name: "Four moves with knights", limit: 7, goal: "mate", fen: "1k4/5P/6/PpP1KP/1R4/1N4 w" },
  { name: "Ten moves by a lone rook, Gardner", limit: 19, goal: "mate", fen: "5/5/5/3k1/K3R w" },
  { name: "Two bare kings: nothing is forced", limit: 63, goal: "mate", fen: "k5/6/6/6/6/5K w" },
];
