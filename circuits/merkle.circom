// Membership in Merkle trees, with SHA-256 and with Poseidon.
//
// A tree of depth d has 2^d leaves. A path has for each level, from the leaf up, the digest beside
// the way, and a bit that is 1 where the way comes from the right. So the bits are those of the
// leaf's place, the lowest first.
//
// A leaf and a node are never hashed alike: with SHA-256 a 0 stands before a leaf's bytes and a 1
// before those of a node's two digests, as in RFC 6962; with Poseidon a node has a capacity of its
// own. So no node can be shown as a leaf.
pragma circom 2.1.0;

include "range.circom";
include "select.circom";
include "sha256.circom";
include "poseidon.circom";

// The hash of a leaf of n bytes.
//
// Parameters: n is 0 or more.
// Inputs: any numbers of the field.
// Constrains: each in[i] is 0 to 255, and out is the SHA-256 digest of 0 and these bytes. Other
//   inputs are refused.
// The caller must: nothing.
template Sha256Leaf(n) {
  signal input in[n];
  signal output out[32];
  component digest = Sha256(n + 1);
  digest.in[0] <== 0;
  for (var i = 0; i < n; i++) { digest.in[i + 1] <== in[i]; }
  out <== digest.out;
}

// The hash of a node with two digests below it.
//
// Inputs: any numbers of the field.
// Constrains: each byte of `left` and `right` is 0 to 255, and out is the SHA-256 digest of 1, left
//   and right. Other inputs are refused.
// The caller must: nothing.
template Sha256Node() {
  signal input left[32];
  signal input right[32];
  signal output out[32];
  component digest = Sha256(65);
  digest.in[0] <== 1;
  for (var i = 0; i < 32; i++) {
    digest.in[i + 1] <== left[i];
    digest.in[i + 33] <== right[i];
  }
  out <== digest.out;
}

// Two rows of k numbers, which change places where `sel` is 1.
//
// Parameters: k is 1 or more.
// Inputs: `sel` is 0 or 1; the rows are any numbers of the field.
// Constrains: left and right are a and b where sel is 0, and b and a where it is 1.
// The caller must: have checked that sel is 0 or 1. It isn't checked here.
template SwitchRows(k) {
  signal input sel;
  signal input a[k];
  signal input b[k];
  signal output left[k];
  signal output right[k];
  for (var i = 0; i < k; i++) { (left[i], right[i]) <== Switcher()(sel, a[i], b[i]); }
}

// The root above a leaf, in a tree over SHA-256.
//
// Parameters: depth is 1 or more.
// Inputs: any numbers of the field. `leaf` is the digest of a leaf, as Sha256Leaf gives it.
// Constrains: each bit of `place` is 0 or 1, all bytes are 0 to 255, and the root is the one to
//   which the path leads. Other inputs are refused.
// The caller must: compare the root with one that it trusts, or use AssertSha256Member; and have
//   made the leaf's digest by Sha256Leaf, where what the leaf holds matters.
template Sha256Root(depth) {
  signal input leaf[32];
  signal input place[depth];
  signal input path[depth][32];
  signal output root[32];
  signal digest[depth + 1][32];
  signal left[depth][32];
  signal right[depth][32];
  AssertBits(depth)(place);
  digest[0] <== leaf;
  for (var k = 0; k < depth; k++) {
    (left[k], right[k]) <== SwitchRows(32)(place[k], digest[k], path[k]);
    digest[k + 1] <== Sha256Node()(left[k], right[k]);
  }
  root <== digest[depth];
}

// The root above a leaf, in a tree over Poseidon.
//
// Parameters: depth is 1 or more.
// Inputs: any numbers of the field. `leaf` is the digest of a leaf, as PoseidonHash gives it.
// Constrains: each bit of `place` is 0 or 1, and the root is the one to which the path leads. Other
//   inputs are refused.
// The caller must: compare the root with one that it trusts, or use AssertPoseidonMember; and have
//   made the leaf's digest by PoseidonHash, where what the leaf holds matters.
template PoseidonRoot(depth) {
  signal input leaf[4];
  signal input place[depth];
  signal input path[depth][4];
  signal output root[4];
  signal digest[depth + 1][4];
  signal left[depth][4];
  signal right[depth][4];
  AssertBits(depth)(place);
  digest[0] <== leaf;
  for (var k = 0; k < depth; k++) {
    (left[k], right[k]) <== SwitchRows(4)(place[k], digest[k], path[k]);
    digest[k + 1] <== PoseidonNode()(left[k], right[k]);
  }
  root <== digest[depth];
}

// Refuses a leaf of n bytes that isn't in the tree over SHA-256 with this root.
//
// Parameters: depth is 1 or more, n is 0 or more.
// Inputs: any numbers of the field.
// Constrains: the bytes `leaf` are hashed as Sha256Leaf does it, and the path leads to the root.
//   What differs is refused, and so are bits and bytes out of their ranges.
// The caller must: nothing but know the root.
template AssertSha256Member(depth, n) {
  signal input leaf[n];
  signal input place[depth];
  signal input path[depth][32];
  signal input root[32];
  signal digest[32] <== Sha256Leaf(n)(leaf);
  signal found[32] <== Sha256Root(depth)(digest, place, path);
  for (var i = 0; i < 32; i++) { found[i] === root[i]; }
}

// Refuses a leaf of n words that isn't in the tree over Poseidon with this root.
//
// Parameters: depth is 1 or more, n is 0 or more.
// Inputs: any numbers of the field.
// Constrains: the words `leaf` are hashed by PoseidonHash, and the path leads to the root. What
//   differs is refused, and so are bits out of their range.
// The caller must: nothing but know the root.
template AssertPoseidonMember(depth, n) {
  signal input leaf[n];
  signal input place[depth];
  signal input path[depth][4];
  signal input root[4];
  signal digest[4] <== PoseidonHash(n)(leaf);
  signal found[4] <== PoseidonRoot(depth)(digest, place, path);
  for (var i = 0; i < 4; i++) { found[i] === root[i]; }
}
