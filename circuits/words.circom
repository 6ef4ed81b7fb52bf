// Words, which are numbers of n bits, and bytes. Everything here checks the range of its inputs,
// but Bytes2Num, which says so.
pragma circom 2.1.0;

include "bits.circom";

// The n lowest bytes of a number, the lowest first.
//
// Parameters: n is 1 to 7.
// Input: any number of the field.
// Constrains: each out[i] is 0 to 255, and the bytes are those of `in`. So a number of 2^(8n) or
//   more is refused.
// The caller must: nothing.
template Num2Bytes(n) {
  assert(1 <= n && n <= 7);
  signal input in;
  signal output out[n];
  signal bits[8*n] <== Num2Bits(8*n)(in);
  for (var i = 0; i < n; i++) {
    var sum = 0;
    for (var j = 0; j < 8; j++) { sum += bits[8*i + j]*(1 << j); }
    out[i] <== sum;
  }
}

// The number with these n bytes, the lowest first.
//
// Parameters: n is 1 to 7.
// Inputs: in[i] is 0 to 255.
// Constrains: out is the sum of in[i]*256^i.
// The caller must: have checked the range of each in[i]. It isn't checked here.
template Bytes2Num(n) {
  assert(1 <= n && n <= 7);
  signal input in[n];
  signal output out;
  var sum = 0;
  for (var i = 0; i < n; i++) { sum += in[i]*(1 << (8*i)); }
  out <== sum;
}

// The bitwise and, or, and exclusive or of two words.
//
// The bits of a*b, one by one, give all three: with s the sum of the words and t their `and`, the
// `or` is s - t, and the exclusive or is s - 2t.
//
// Parameters: n is 1 to 62.
// Inputs: any numbers of the field.
// Constrains: a and b are 0 to 2^n - 1, and the outputs are as said. Other inputs are refused.
// The caller must: nothing.
template Bitwise(n) {
  assert(1 <= n && n <= 62);
  signal input a;
  signal input b;
  signal output and;
  signal output or;
  signal output xor;
  signal bits_of_a[n] <== Num2Bits(n)(a);
  signal bits_of_b[n] <== Num2Bits(n)(b);
  signal both[n];
  var sum = 0;
  for (var i = 0; i < n; i++) {
    both[i] <== bits_of_a[i]*bits_of_b[i];
    sum += both[i]*(1 << i);
  }
  and <== sum;
  or <== a + b - sum;
  xor <== a + b - 2*sum;
}

// A word with all its n bits turned.
//
// Parameters: n is 1 to 63.
// Input: any number of the field.
// Constrains: `in` is 0 to 2^n - 1, and out is 2^n - 1 - in. Other inputs are refused.
// The caller must: nothing.
template BitwiseNot(n) {
  signal input in;
  signal output out;
  _ <== Num2Bits(n)(in);
  out <== (1 << n) - 1 - in;
}

// A word that is rotated by k places towards its upper end.
//
// Parameters: n is 1 to 63, k is 0 to n - 1.
// Input: any number of the field.
// Constrains: `in` is 0 to 2^n - 1, and bit i of it is bit (i + k) % n of out. Other inputs are
//   refused.
// The caller must: nothing.
template RotateLeft(n, k) {
  assert(0 <= k && k < n);
  signal input in;
  signal output out;
  signal bits[n] <== Num2Bits(n)(in);
  var sum = 0;
  for (var i = 0; i < n; i++) { sum += bits[i]*(1 << ((i + k) % n)); }
  out <== sum;
}

// A word that is shifted by k places towards its upper end; what passes the end is dropped.
//
// Parameters: n is 1 to 63, k is 0 to n.
// Input: any number of the field.
// Constrains: `in` is 0 to 2^n - 1, and out is in*2^k modulo 2^n. Other inputs are refused.
// The caller must: nothing.
template ShiftLeft(n, k) {
  assert(0 <= k && k <= n);
  signal input in;
  signal output out;
  signal bits[n] <== Num2Bits(n)(in);
  var sum = 0;
  for (var i = 0; i + k < n; i++) { sum += bits[i]*(1 << (i + k)); }
  out <== sum;
}

// A word that is shifted by k places towards its lower end; what passes the end is dropped.
//
// Parameters: n is 1 to 63, k is 0 to n.
// Input: any number of the field.
// Constrains: `in` is 0 to 2^n - 1, and out is in \ 2^k. Other inputs are refused.
// The caller must: nothing.
template ShiftRight(n, k) {
  assert(0 <= k && k <= n);
  signal input in;
  signal output out;
  signal bits[n] <== Num2Bits(n)(in);
  var sum = 0;
  for (var i = k; i < n; i++) { sum += bits[i]*(1 << (i - k)); }
  out <== sum;
}
