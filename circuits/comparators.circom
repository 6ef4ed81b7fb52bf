// Tests and comparisons, whose answer is 1 or 0.
//
// LessThan and its kin look at one bit of a difference. That is the order of the numbers only where
// both lie in the range that is named; nothing here checks it. An unchecked input is a hole:
// LessThan(8) says of p - 1 and 0 that the first is less. Check inputs by AssertRange, or by bits,
// or take LessThanChecked, which checks both, or LessThan64, which is right for all numbers of the
// field. The operators `<` and `>` of the language are none of these: they compare signed numbers.
pragma circom 2.1.0;

include "bits.circom";

// Whether a number is 0.
//
// Input: any number of the field.
// Constrains: out is 1 where `in` is 0, else 0. The inner inverse is fixed too: it is 0 where `in`
//   is 0.
// The caller must: nothing.
template IsZero() {
  signal input in;
  signal output out;
  signal inverse <-- in == 0 ? 0 : 1/in;
  out <== 1 - in*inverse;
  in*out === 0;
  inverse*out === 0;
}

// Whether two numbers are equal.
//
// Inputs: any numbers of the field.
// Constrains: out is 1 where in[0] is in[1], else 0.
// The caller must: nothing.
template IsEqual() {
  signal input in[2];
  signal output out;
  out <== IsZero()(in[0] - in[1]);
}

// Whether all of n numbers are 0.
//
// Parameters: n is 1 to 65536.
// Inputs: in[i] is below 2^47.
// Constrains: out is 1 where each in[i] is 0, else 0.
// The caller must: have checked the range of each in[i]; a sum of larger numbers may be p, which is
//   0. It isn't checked here.
template AreZero(n) {
  assert(1 <= n && n <= 65536);
  signal input in[n];
  signal output out;
  var sum = 0;
  for (var i = 0; i < n; i++) { sum += in[i]; }
  out <== IsZero()(sum);
}

// Refuses two numbers that differ, where it is enabled.
//
// Inputs: `enabled` is 0 or 1; in[0] and in[1] are any numbers of the field.
// Constrains: enabled is 0, or in[0] is in[1].
// The caller must: nothing for the constraint to hold as said; any `enabled` but 0 enables it.
template ForceEqualIfEnabled() {
  signal input enabled;
  signal input in[2];
  enabled*(in[0] - in[1]) === 0;
}

// Whether in[0] is less than in[1].
//
// Parameters: n is 1 to 62.
// Inputs: in[0] and in[1] are 0 to 2^n - 1.
// Constrains: out is 1 where in[0] < in[1], else 0, for inputs in this range. Of others some are
//   refused and some get a wrong answer.
// The caller must: have checked the range of both inputs. It isn't checked here.
template LessThan(n) {
  assert(1 <= n && n <= 62);
  signal input in[2];
  signal output out;
  signal bits[n + 1] <== Num2Bits(n + 1)(in[0] - in[1] + (1 << n));
  out <== 1 - bits[n];
}

// Whether in[0] is at most in[1]: as LessThan, with in[1] one more.
//
// Parameters, inputs, and what the caller must: as for LessThan.
// Constrains: out is 1 where in[0] <= in[1], else 0.
template LessEqThan(n) {
  signal input in[2];
  signal output out;
  out <== LessThan(n)([in[0], in[1] + 1]);
}

// Whether in[0] is greater than in[1].
//
// Parameters, inputs, and what the caller must: as for LessThan.
// Constrains: out is 1 where in[0] > in[1], else 0.
template GreaterThan(n) {
  signal input in[2];
  signal output out;
  out <== LessThan(n)([in[1], in[0]]);
}

// Whether in[0] is at least in[1].
//
// Parameters, inputs, and what the caller must: as for LessThan.
// Constrains: out is 1 where in[0] >= in[1], else 0.
template GreaterEqThan(n) {
  signal input in[2];
  signal output out;
  out <== LessThan(n)([in[1], in[0] + 1]);
}

// Whether in[0] is less than in[1], and both have n bits.
//
// Parameters: n is 1 to 62.
// Inputs: any numbers of the field.
// Constrains: in[0] and in[1] are 0 to 2^n - 1, and out is 1 where in[0] < in[1], else 0. So inputs
//   out of the range are refused.
// The caller must: nothing.
template LessThanChecked(n) {
  signal input in[2];
  signal output out;
  _ <== Num2Bits(n)(in[0]);
  _ <== Num2Bits(n)(in[1]);
  out <== LessThan(n)(in);
}

// Whether in[0] is less than in[1], for all numbers of the field, as whole numbers 0 to p - 1.
//
// Inputs: any numbers of the field.
// Constrains: out is 1 where in[0] < in[1], else 0.
// The caller must: nothing.
template LessThan64() {
  signal input in[2];
  signal output out;
  signal bits[2][64];
  signal half[2][2];
  for (var k = 0; k < 2; k++) {
    bits[k] <== Num2Bits64()(in[k]);
    for (var h = 0; h < 2; h++) {
      var sum = 0;
      for (var i = 0; i < 32; i++) { sum += bits[k][32*h + i]*(1 << i); }
      half[k][h] <== sum;
    }
  }
  signal low <== LessThan(32)([half[0][0], half[1][0]]);
  signal high <== LessThan(32)([half[0][1], half[1][1]]);
  signal same <== IsEqual()([half[0][1], half[1][1]]);
  out <== high + same*low;
}

// Whether a number counts as negative, as the operators `<` and `>` take it: above (p - 1)/2.
//
// Input: any number of the field.
// Constrains: out is 1 where in > (p - 1)/2, else 0.
// The caller must: nothing.
template IsNegative() {
  signal input in;
  signal output out;
  out <== LessThan64()([9223372034707292160, in]);
}

// The lesser and the greater of two numbers.
//
// Parameters: n is 1 to 62.
// Inputs: in[0] and in[1] are 0 to 2^n - 1.
// Constrains: min and max are these two, in their order.
// The caller must: have checked the range of both inputs. It isn't checked here.
template MinMax(n) {
  signal input in[2];
  signal output min;
  signal output max;
  signal less <== LessThan(n)(in);
  min <== less*(in[0] - in[1]) + in[1];
  max <== in[0] + in[1] - min;
}
