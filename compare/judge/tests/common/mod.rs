//! What document 01 says of every tree.

/// Nodes, sets and entries of Kuhn with 2 to 6 seats, then of Leduc.
pub const COUNTS: [(usize, usize, usize); 6] = [
    (58, 12, 24),
    (617, 48, 96),
    (7_886, 160, 320),
    (116_437, 480, 960),
    (1_944_020, 1_344, 2_688),
    (9_457, 936, 2_184),
];
