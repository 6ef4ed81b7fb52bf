// What is left of a balance behind a transfer. The amount isn't checked: see README.md.
include "comparators.circom";
include "range.circom";

template Transfer() {
  signal input balance;
  signal input amount;
  signal output left;
  AssertRange(32)(balance);
  signal enough <== LessEqThan(32)([amount, balance]);
  enough === 1;
  left <== balance - amount;
}
component main {public [balance]} = Transfer();
