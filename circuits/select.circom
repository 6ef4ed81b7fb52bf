// Selection and switching.
pragma circom 2.1.0;

// One of two numbers.
//
// Inputs: `condition` is 0 or 1; the others are any numbers of the field.
// Constrains: out is `then` where the condition is 1, and `otherwise` where it is 0.
// The caller must: have checked that the condition is 0 or 1. It isn't checked here.
template Choose() {
  signal input condition;
  signal input then;
  signal input otherwise;
  signal output out;
  out <== condition*(then - otherwise) + otherwise;
}

// Two numbers, which change places where `sel` is 1.
//
// Inputs: `sel` is 0 or 1; L and R are any numbers of the field.
// Constrains: outL and outR are L and R where sel is 0, and R and L where it is 1. Whatever sel is,
//   outL + outR is L + R.
// The caller must: have checked that sel is 0 or 1. It isn't checked here.
template Switcher() {
  signal input sel;
  signal input L;
  signal input R;
  signal output outL;
  signal output outR;
  outL <== sel*(R - L) + L;
  outR <== L + R - outL;
}

// One of 2^n rows of k numbers each, by the n bits of its place, the lowest first.
//
// Parameters: n is 1 to 16; k is 1 or more.
// Inputs: s[i] is 0 or 1; c are any numbers of the field.
// Constrains: out is c[s[0] + 2*s[1] + ..].
// The caller must: have checked that each s[i] is 0 or 1. It isn't checked here.
template MultiMux(n, k) {
  assert(1 <= n && n <= 16);
  signal input c[1 << n][k];
  signal input s[n];
  signal output out[k];
  // A tree of rows: those below row i are 2i + 1 and 2i + 2, and the last 2^n are those of c.
  signal row[(2 << n) - 1][k];
  for (var i = 0; i < (1 << n); i++) { row[(1 << n) - 1 + i] <== c[i]; }
  for (var depth = n - 1; depth >= 0; depth--) {
    for (var i = (1 << depth) - 1; i < (2 << depth) - 1; i++) {
      for (var j = 0; j < k; j++) {
        row[i][j] <== s[n - 1 - depth]*(row[2*i + 2][j] - row[2*i + 1][j]) + row[2*i + 1][j];
      }
    }
  }
  out <== row[0];
}

// One of 2^n numbers, by the n bits of its place, the lowest first.
//
// Parameters, inputs, and what the caller must: as for MultiMux.
// Constrains: out is c[s[0] + 2*s[1] + ..].
template Mux(n) {
  signal input c[1 << n];
  signal input s[n];
  signal output out;
  component rows = MultiMux(n, 1);
  for (var i = 0; i < (1 << n); i++) { rows.c[i][0] <== c[i]; }
  rows.s <== s;
  out <== rows.out[0];
}

// A 1 at a place, and 0 at all others.
//
// out[i] is 0 but where i is `in`, since out[i]*(in - i) is 0; and as the sum is 1, there is such a
// place.
//
// Parameters: n is 1 or more.
// Input: any number of the field.
// Constrains: `in` is 0 to n - 1, and out[i] is 1 where i is `in`, else 0. Other inputs are
//   refused.
// The caller must: nothing.
template Decoder(n) {
  signal input in;
  signal output out[n];
  var sum = 0;
  for (var i = 0; i < n; i++) {
    out[i] <-- in == i;
    out[i]*(in - i) === 0;
    sum += out[i];
  }
  sum === 1;
}

// The row at a place, of n rows of k numbers each.
//
// Parameters: n and k are 1 or more.
// Inputs: any numbers of the field.
// Constrains: `index` is 0 to n - 1, and out is in[index]. Other places are refused.
// The caller must: nothing.
template SelectRow(n, k) {
  signal input in[n][k];
  signal input index;
  signal output out[k];
  signal hot[n] <== Decoder(n)(index);
  signal term[n][k];
  for (var j = 0; j < k; j++) {
    var sum = 0;
    for (var i = 0; i < n; i++) {
      term[i][j] <== hot[i]*in[i][j];
      sum += term[i][j];
    }
    out[j] <== sum;
  }
}

// The number at a place, of n numbers.
//
// Parameters: n is 1 or more.
// Inputs: any numbers of the field.
// Constrains: `index` is 0 to n - 1, and out is in[index]. Other places are refused.
// The caller must: nothing.
template Select(n) {
  signal input in[n];
  signal input index;
  signal output out;
  signal hot[n] <== Decoder(n)(index);
  signal term[n];
  var sum = 0;
  for (var i = 0; i < n; i++) {
    term[i] <== hot[i]*in[i];
    sum += term[i];
  }
  out <== sum;
}

// n numbers, with another one in one place.
//
// Parameters: n is 1 or more.
// Inputs: any numbers of the field.
// Constrains: `index` is 0 to n - 1; out[index] is `value`, and out[i] is in[i] at all other
//   places. Other places are refused.
// The caller must: nothing.
template Replace(n) {
  signal input in[n];
  signal input index;
  signal input value;
  signal output out[n];
  signal hot[n] <== Decoder(n)(index);
  for (var i = 0; i < n; i++) { out[i] <== hot[i]*(value - in[i]) + in[i]; }
}
