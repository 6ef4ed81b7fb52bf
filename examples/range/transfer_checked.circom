// What is left of a balance behind a transfer.
include "comparators.circom";
include "range.circom";

template Transfer() {
  signal input balance;
  signal input amount;
  signal output left;
  AssertRange(32)(balance);
  AssertRange(32)(amount);
  signal enough <== LessEqThan(32)([amount, balance]);
  enough === 1;
  left <== balance - amount;
}
component main {public [balance]} = Transfer();
