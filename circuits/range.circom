// Checks of ranges. Each refuses what lies outside; none has an output.
pragma circom 2.1.0;

include "bits.circom";

// The number of bits of a number: the least k with n < 2^k, and at least 1.
function bit_length(n) {
  var k = 1;
  while (n >> k) { k++; }
  return k;
}

// Refuses all but 0 and 1.
//
// Input: any number of the field.
// Constrains: `in` is 0 or 1.
// The caller must: nothing.
template AssertBit() {
  signal input in;
  in*(in - 1) === 0;
}

// Refuses all but 0 and 1, in each of n places.
//
// Inputs: any numbers of the field.
// Constrains: each in[i] is 0 or 1.
// The caller must: nothing.
template AssertBits(n) {
  signal input in[n];
  for (var i = 0; i < n; i++) { in[i]*(in[i] - 1) === 0; }
}

// Refuses numbers of more than n bits.
//
// Parameters: n is 1 to 63.
// Input: any number of the field.
// Constrains: `in` is 0 to 2^n - 1.
// The caller must: nothing.
template AssertRange(n) {
  signal input in;
  _ <== Num2Bits(n)(in);
}

// Refuses numbers of more than n bits, in each of k places.
//
// Parameters: n is 1 to 63.
// Inputs: any numbers of the field.
// Constrains: each in[i] is 0 to 2^n - 1.
// The caller must: nothing.
template AssertRanges(k, n) {
  signal input in[k];
  for (var i = 0; i < k; i++) { _ <== Num2Bits(n)(in[i]); }
}

// Refuses numbers below `low` or above `high`.
//
// With k bits for both differences, these add up to high - low in the field. Each is below 2^k, and
// 2^(k + 1) is below p, so they add up to it as whole numbers too.
//
// Parameters: low <= high, with high - low below 2^62, both as numbers 0 to p - 1.
// Input: any number of the field.
// Constrains: in - low, as a number 0 to p - 1, is at most high - low. Where `low` is negative, as
//   in AssertBetween(-5, 5), that is the range of signed numbers.
// The caller must: nothing.
template AssertBetween(low, high) {
  var k = bit_length(high - low);
  assert(k <= 62);
  signal input in;
  _ <== Num2Bits(k)(in - low);
  _ <== Num2Bits(k)(high - in);
}

// Refuses 0.
//
// Input: any number of the field.
// Constrains: `in` isn't 0.
// The caller must: nothing.
template AssertNonZero() {
  signal input in;
  signal inverse <-- in == 0 ? 0 : 1/in;
  in*inverse === 1;
}

// Refuses n numbers of which two are equal.
//
// Parameters: n is 2 or more.
// Inputs: any numbers of the field.
// Constrains: in[i] and in[j] differ for all i and j that do: the product of all differences has an
//   inverse.
// The caller must: nothing.
template AssertDistinct(n) {
  assert(n >= 2);
  signal input in[n];
  var pairs = n*(n - 1) \ 2;
  signal product[pairs + 1];
  product[0] <== 1;
  var k = 0;
  for (var i = 0; i < n; i++) {
    for (var j = 0; j < i; j++) {
      product[k + 1] <== product[k]*(in[i] - in[j]);
      k++;
    }
  }
  AssertNonZero()(product[pairs]);
}
