// Numbers and their bits. The lowest bit comes first everywhere.
//
// The field's order is p = 2^64 - 2^32 + 1. A number of at most 63 bits is below p, so its bits are
// the only ones that add up to it. With 64 bits a number below 2^32 - 1 has two rows of bits, its
// own and those of the number plus p; so for 64 bits there are templates of their own.
pragma circom 2.1.0;

include "comparators.circom";

// The n bits of a number.
//
// Parameters: n is 1 to 63.
// Input: any number of the field.
// Constrains: each out[i] is 0 or 1, and the bits are those of `in`. So a number of 2^n or more is
//   refused, p - 1 among them.
// The caller must: nothing.
template Num2Bits(n) {
  assert(1 <= n && n <= 63);
  signal input in;
  signal output out[n];
  var sum = 0;
  for (var i = 0; i < n; i++) {
    out[i] <-- (in >> i) & 1;
    out[i]*(out[i] - 1) === 0;
    sum += out[i]*(1 << i);
  }
  sum === in;
}

// The number with these n bits.
//
// Parameters: n is 1 to 63.
// Input: in[i] is 0 or 1.
// Constrains: out is the sum of in[i]*2^i.
// The caller must: have checked that each in[i] is 0 or 1. It isn't checked here.
template Bits2Num(n) {
  assert(1 <= n && n <= 63);
  signal input in[n];
  signal output out;
  var sum = 0;
  for (var i = 0; i < n; i++) { sum += in[i]*(1 << i); }
  out <== sum;
}

// Refuses 64 bits that as a whole number are p or more.
//
// p has 32 times 1, then 31 times 0, then a 1. So a number of 64 bits is below p exactly where not
// all of its upper 32 bits are 1, or all of its lower 32 bits are 0.
//
// Input: in[i] is 0 or 1.
// Constrains: the sum of in[i]*2^i as a whole number is below p.
// The caller must: have checked that each in[i] is 0 or 1. It isn't checked here.
template AssertBelowOrder() {
  signal input in[64];
  var low = 0;
  var high = 0;
  for (var i = 0; i < 32; i++) {
    low += in[i]*(1 << i);
    high += in[i + 32]*(1 << i);
  }
  signal full <== IsZero()(high - 4294967295);
  full*low === 0;
}

// The 64 bits of any number of the field, as a whole number below p.
//
// Input: any number of the field.
// Constrains: each out[i] is 0 or 1, and as a whole number the bits are `in`; so they are the only
//   ones.
// The caller must: nothing.
template Num2Bits64() {
  signal input in;
  signal output out[64];
  var sum = 0;
  for (var i = 0; i < 64; i++) {
    out[i] <-- (in >> i) & 1;
    out[i]*(out[i] - 1) === 0;
    sum += out[i]*2**i;
  }
  sum === in;
  AssertBelowOrder()(out);
}

// The number with these 64 bits, where as a whole number it is below p.
//
// Input: in[i] is 0 or 1.
// Constrains: out is the sum of in[i]*2^i, which is below p as a whole number. So bits of p and of
//   all above are refused.
// The caller must: have checked that each in[i] is 0 or 1. It isn't checked here.
template Bits2Num64() {
  signal input in[64];
  signal output out;
  AssertBelowOrder()(in);
  var sum = 0;
  for (var i = 0; i < 64; i++) { sum += in[i]*2**i; }
  out <== sum;
}
