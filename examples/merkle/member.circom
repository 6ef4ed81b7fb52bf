// Somebody knows a leaf of two words in a tree of depth 3 with this root. The root is public; the
// leaf, its place and the path aren't.
include "merkle.circom";

component main {public [root]} = AssertPoseidonMember(3, 2);
