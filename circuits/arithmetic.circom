// Sums modulo powers of two, division with remainder, quotients and powers in the field.
pragma circom 2.1.0;

include "bits.circom";
include "range.circom";

// The sum of k words of n bits, modulo 2^n, and what is carried.
//
// Parameters: k is 1 or more; n bits and those of k - 1 are at most 63.
// Inputs: in[i] is 0 to 2^n - 1.
// Constrains: out + carry*2^n is the sum, out is 0 to 2^n - 1.
// The caller must: have checked the range of each in[i]. It isn't checked here. Where the sum has
//   more bits than those of k words, it is refused.
template AddWords(n, k) {
  signal input in[k];
  signal output out;
  signal output carry;
  var width = n + (k > 1 ? bit_length(k - 1) : 0);
  assert(width <= 63);
  var sum = 0;
  for (var i = 0; i < k; i++) { sum += in[i]; }
  signal bits[width] <== Num2Bits(width)(sum);
  var low = 0;
  var high = 0;
  for (var i = 0; i < n; i++) { low += bits[i]*(1 << i); }
  for (var i = n; i < width; i++) { high += bits[i]*(1 << (i - n)); }
  out <== low;
  carry <== high;
}

// The quotient and the remainder of whole numbers.
//
// With a quotient of m bits and a divisor and a remainder of n bits, quotient*divisor + remainder
// is below 2^(m + n), which is below p. So it is the dividend as a whole number, and not only in
// the field.
//
// Parameters: m and n are 1 or more, and m + n is at most 63.
// Inputs: any numbers of the field.
// Constrains: the divisor is 1 to 2^n - 1, the quotient is 0 to 2^m - 1, the remainder is below the
//   divisor, and quotient*divisor + remainder is the dividend. So these inputs are refused: a
//   divisor of 0 or of more than n bits, and a dividend whose quotient has more than m bits.
// The caller must: nothing.
template DivideWithRemainder(m, n) {
  assert(1 <= m && 1 <= n && m + n <= 63);
  signal input dividend;
  signal input divisor;
  signal output quotient;
  signal output remainder;
  quotient <-- divisor == 0 ? 0 : dividend \ divisor;
  remainder <-- divisor == 0 ? 0 : dividend % divisor;
  AssertRange(n)(divisor);
  AssertRange(m)(quotient);
  AssertRange(n)(remainder);
  // The remainder is at most divisor - 1: both have n bits, or divisor - 1 is p - 1.
  AssertRange(n)(divisor - 1 - remainder);
  quotient*divisor + remainder === dividend;
}

// The inverse in the field.
//
// Input: any number of the field.
// Constrains: in*out is 1. So 0 is refused.
// The caller must: nothing.
template Inverse() {
  signal input in;
  signal output out;
  out <-- in == 0 ? 0 : 1/in;
  in*out === 1;
}

// The quotient in the field.
//
// Inputs: any numbers of the field.
// Constrains: out is a times the inverse of b, and b isn't 0. So b = 0 is refused, also where a is
//   0.
// The caller must: nothing.
template Divide() {
  signal input a;
  signal input b;
  signal output out;
  signal inverse <== Inverse()(b);
  out <== a*inverse;
}

// The power with an exponent that is known.
//
// Parameters: e is 0 to p - 1.
// Input: any number of the field.
// Constrains: out is in^e; in^0 is 1.
// The caller must: nothing.
template Power(e) {
  signal input in;
  signal output out;
  var n = bit_length(e);
  signal square[n];
  signal product[n + 1];
  product[0] <== 1;
  for (var i = 0; i < n; i++) {
    if (i == 0) { square[i] <== in; } else { square[i] <== square[i - 1]*square[i - 1]; }
    if ((e >> i) & 1) {
      product[i + 1] <== product[i]*square[i];
    } else {
      product[i + 1] <== product[i];
    }
  }
  out <== product[n];
}
