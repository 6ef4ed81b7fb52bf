// Whole numbers of any size, as k limbs of n bits, the lowest limb first.
//
// Inputs have to be limbs, each 0 to 2^n - 1, which the caller must have checked (AssertRanges of
// range.circom does it). Outputs are limbs then. A column, that is a sum of products of limbs, has
// to be below 2^62, so that nothing wraps in the field; the asserts of the templates see to it.
pragma circom 2.1.0;

include "bits.circom";
include "comparators.circom";
include "gates.circom";
include "range.circom";

// The limbs of a number that is given by m columns, and what is carried out of the last one.
//
// The sum of a column and the carry into it has at most w + 1 bits: the lowest n are the limb, the
// others are carried.
//
// Parameters: m is 1 or more, 1 <= n <= w <= 62.
// Inputs: in[i] is 0 to 2^w - 1.
// Constrains: out[i] is 0 to 2^n - 1, and the sum of out[i]*2^(n*i) and carry*2^(n*m) is that of
//   in[i]*2^(n*i).
// The caller must: have checked the range of each in[i]. It isn't checked here; but a sum of w + 2
//   bits or more is refused.
template Carry(n, m, w) {
  assert(1 <= n && n <= w && w <= 62);
  signal input in[m];
  signal output out[m];
  signal output carry;
  component bits[m];
  var over = 0;
  for (var i = 0; i < m; i++) {
    bits[i] = Num2Bits(w + 1);
    bits[i].in <== in[i] + over;
    var low = 0;
    over = 0;
    for (var j = 0; j < n; j++) { low += bits[i].out[j]*(1 << j); }
    for (var j = n; j < w + 1; j++) { over += bits[i].out[j]*(1 << (j - n)); }
    out[i] <== low;
  }
  carry <== over;
}

// The sum of two numbers of k limbs.
//
// Parameters: k is 1 or more, n is 1 to 61.
// Inputs: limbs of n bits, checked by the caller.
// Constrains: out is the sum, of k + 1 limbs.
template BigAdd(n, k) {
  signal input a[k];
  signal input b[k];
  signal output out[k + 1];
  component carried = Carry(n, k, n + 1);
  for (var i = 0; i < k; i++) { carried.in[i] <== a[i] + b[i]; }
  for (var i = 0; i < k; i++) { out[i] <== carried.out[i]; }
  out[k] <== carried.carry;
}

// The difference of two numbers of k limbs, modulo 2^(n*k), and whether it was borrowed from there.
//
// Parameters: k is 1 or more, n is 1 to 61.
// Inputs: limbs of n bits, checked by the caller.
// Constrains: out is a - b + borrow*2^(n*k), of k limbs, and borrow is 1 where a < b, else 0.
template BigSubtract(n, k) {
  assert(1 <= n && n <= 61);
  signal input a[k];
  signal input b[k];
  signal output out[k];
  signal output borrow;
  component bits[k];
  var under = 0;
  for (var i = 0; i < k; i++) {
    bits[i] = Num2Bits(n + 1);
    bits[i].in <== a[i] - b[i] - under + (1 << n);
    var low = 0;
    for (var j = 0; j < n; j++) { low += bits[i].out[j]*(1 << j); }
    out[i] <== low;
    under = 1 - bits[i].out[n];
  }
  borrow <== under;
}

// Whether a is less than b.
//
// Parameters: k is 1 or more, n is 1 to 61.
// Inputs: limbs of n bits, checked by the caller.
// Constrains: out is 1 where a < b, else 0.
template BigLessThan(n, k) {
  signal input a[k];
  signal input b[k];
  signal output out;
  (_, out) <== BigSubtract(n, k)(a, b);
}

// Whether two numbers of k limbs are equal.
//
// Parameters: k is 1 or more.
// Inputs: any numbers of the field.
// Constrains: out is 1 where a[i] is b[i] for all i, else 0.
template BigIsEqual(k) {
  signal input a[k];
  signal input b[k];
  signal output out;
  signal same[k];
  for (var i = 0; i < k; i++) { same[i] <== IsEqual()([a[i], b[i]]); }
  out <== MultiAND(k)(same);
}

// The product of a number of k limbs and one of m limbs.
//
// Parameters: k and m are 1 or more, and 2*n and the bits of the lesser of k and m are at most 62:
// with limbs of 28 bits up to 63 of them, with 24 bits up to 16,383.
// Inputs: limbs of n bits, checked by the caller.
// Constrains: out is the product, of k + m limbs.
template BigMultiply(n, k, m) {
  signal input a[k];
  signal input b[m];
  signal output out[k + m];
  signal term[k][m];
  var column[k + m - 1];
  for (var i = 0; i < k; i++) {
    for (var j = 0; j < m; j++) {
      term[i][j] <== a[i]*b[j];
      column[i + j] += term[i][j];
    }
  }
  component carried = Carry(n, k + m - 1, 2*n + bit_length(k < m ? k : m));
  for (var i = 0; i < k + m - 1; i++) { carried.in[i] <== column[i]; }
  for (var i = 0; i < k + m - 1; i++) { out[i] <== carried.out[i]; }
  out[k + m - 1] <== carried.carry;
}

// The quotient and the remainder of a number of k limbs by one of m limbs.
//
// Whoever makes the witness divides bit by bit, in variables; what counts is what is constrained.
//
// Parameters: as for BigMultiply.
// Inputs: limbs of n bits, checked by the caller.
// Constrains: quotient*divisor + remainder is the dividend, the remainder is less than the divisor,
//   and both outputs are limbs of n bits. So a divisor of 0 is refused.
template BigDivide(n, k, m) {
  signal input dividend[k];
  signal input divisor[m];
  signal output quotient[k];
  signal output remainder[m];
  var found[k];
  var rest[m + 1];
  var less[m + 1];
  for (var i = n*k - 1; i >= 0; i--) {
    // The rest is doubled, the next bit of the dividend comes in, and what the divisor leaves of it
    // is taken where it isn't negative.
    var over = (dividend[i \ n] >> (i % n)) & 1;
    var under = 0;
    for (var j = 0; j < m + 1; j++) {
      var sum = 2*rest[j] + over;
      rest[j] = sum & ((1 << n) - 1);
      over = sum >> n;
      sum = rest[j] - (j < m ? divisor[j] : 0) - under + (1 << n);
      less[j] = sum & ((1 << n) - 1);
      under = 1 - (sum >> n);
    }
    for (var j = 0; j < m + 1; j++) { rest[j] = under ? rest[j] : less[j]; }
    found[i \ n] += (1 - under)*(1 << (i % n));
  }
  for (var i = 0; i < k; i++) { quotient[i] <-- found[i]; }
  for (var i = 0; i < m; i++) { remainder[i] <-- rest[i]; }
  AssertRanges(k, n)(quotient);
  AssertRanges(m, n)(remainder);
  signal is_less <== BigLessThan(n, m)(remainder, divisor);
  is_less === 1;
  signal product[k + m] <== BigMultiply(n, k, m)(quotient, divisor);
  component whole = BigAdd(n, k + m);
  for (var i = 0; i < k + m; i++) {
    whole.a[i] <== product[i];
    whole.b[i] <== i < m ? remainder[i] : 0;
  }
  for (var i = 0; i < k + m + 1; i++) { whole.out[i] === (i < k ? dividend[i] : 0); }
}

// The product of two numbers of k limbs modulo a third one.
//
// Parameters: as for BigMultiply, with k in place of m, and with 2*k in place of k.
// Inputs: limbs of n bits, checked by the caller. They may be the modulus or more.
// Constrains: out is the remainder of a*b by the modulus, so it is less. A modulus of 0 is refused.
template BigMultiplyModulo(n, k) {
  signal input a[k];
  signal input b[k];
  signal input modulus[k];
  signal output out[k];
  signal product[2*k] <== BigMultiply(n, k, k)(a, b);
  (_, out) <== BigDivide(n, 2*k, k)(product, modulus);
}
