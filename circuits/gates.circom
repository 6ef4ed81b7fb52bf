// Gates. All inputs have to be 0 or 1, which the caller must have checked: none is checked here.
// Outputs are then 0 or 1 too.
pragma circom 2.1.0;

include "bits.circom";
include "comparators.circom";
include "range.circom";

// 1 where `in` is 0. Input: 0 or 1, checked by the caller.
template NOT() {
  signal input in;
  signal output out;
  out <== 1 - in;
}

// 1 where both are 1. Inputs: 0 or 1, checked by the caller.
template AND() {
  signal input a;
  signal input b;
  signal output out;
  out <== a*b;
}

// 1 where one or both are 1. Inputs: 0 or 1, checked by the caller.
template OR() {
  signal input a;
  signal input b;
  signal output out;
  out <== a + b - a*b;
}

// 1 where they differ. Inputs: 0 or 1, checked by the caller.
template XOR() {
  signal input a;
  signal input b;
  signal output out;
  out <== a + b - 2*a*b;
}

// 0 where both are 1. Inputs: 0 or 1, checked by the caller.
template NAND() {
  signal input a;
  signal input b;
  signal output out;
  out <== 1 - a*b;
}

// 1 where both are 0. Inputs: 0 or 1, checked by the caller.
template NOR() {
  signal input a;
  signal input b;
  signal output out;
  out <== 1 - a - b + a*b;
}

// 1 where they are equal. Inputs: 0 or 1, checked by the caller.
template XNOR() {
  signal input a;
  signal input b;
  signal output out;
  out <== 1 - a - b + 2*a*b;
}

// 1 where all of n are 1. Their sum is then n, and with bits at no other place.
//
// Parameters: n is 1 to 2^32.
// Inputs: 0 or 1, checked by the caller.
template MultiAND(n) {
  signal input in[n];
  signal output out;
  var sum = 0;
  for (var i = 0; i < n; i++) { sum += in[i]; }
  out <== IsZero()(n - sum);
}

// 1 where one of n is 1 or more are.
//
// Parameters: n is 1 to 2^32.
// Inputs: 0 or 1, checked by the caller.
template MultiOR(n) {
  signal input in[n];
  signal output out;
  var sum = 0;
  for (var i = 0; i < n; i++) { sum += in[i]; }
  signal none <== IsZero()(sum);
  out <== 1 - none;
}

// 1 where an odd number of n are 1: the lowest bit of their sum.
//
// Parameters: n is 1 to 2^32.
// Inputs: 0 or 1, checked by the caller.
template MultiXOR(n) {
  signal input in[n];
  signal output out;
  var sum = 0;
  for (var i = 0; i < n; i++) { sum += in[i]; }
  signal bits[bit_length(n)] <== Num2Bits(bit_length(n))(sum);
  out <== bits[0];
}
