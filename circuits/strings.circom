// Strings of bytes in strings of bytes.
//
// Up to seven bytes are compared at once: as digits to the base 256 they are a number below 2^56,
// so the difference of two such numbers is 0 in the field only where all bytes are equal. That
// holds for bytes alone; the caller must have checked that each is 0 to 255 (AssertRanges(n, 8) of
// range.circom does it). With unchecked bytes a text of 97 + 256 and 97 matches the pattern 97, 98.
pragma circom 2.1.0;

include "comparators.circom";
include "gates.circom";
include "select.circom";

// Whether two strings of m bytes are equal.
//
// Parameters: m is 1 or more.
// Inputs: bytes, checked by the caller.
// Constrains: out is 1 where a[i] is b[i] for all i, else 0.
template EqualStrings(m) {
  signal input a[m];
  signal input b[m];
  signal output out;
  var pieces = (m + 6) \ 7;
  signal same[pieces];
  for (var k = 0; k < pieces; k++) {
    var difference = 0;
    for (var i = 7*k; i < 7*k + 7 && i < m; i++) {
      difference += (a[i] - b[i])*(1 << (8*(i - 7*k)));
    }
    same[k] <== IsZero()(difference);
  }
  if (pieces == 1) { out <== same[0]; } else { out <== MultiAND(pieces)(same); }
}

// Where a pattern of m bytes stands in a text of n bytes.
//
// Parameters: 1 <= m <= n.
// Inputs: bytes, checked by the caller.
// Constrains: out[i] is 1 where text[i + j] is pattern[j] for all j below m, else 0.
template Matches(n, m) {
  assert(1 <= m && m <= n);
  signal input text[n];
  signal input pattern[m];
  signal output out[n - m + 1];
  component same[n - m + 1];
  for (var i = 0; i < n - m + 1; i++) {
    same[i] = EqualStrings(m);
    for (var j = 0; j < m; j++) { same[i].a[j] <== text[i + j]; }
    same[i].b <== pattern;
    out[i] <== same[i].out;
  }
}

// How often a pattern of m bytes stands in a text of n bytes; its places may overlap.
//
// Parameters and inputs: as for Matches.
// Constrains: out is the number of places.
template CountMatches(n, m) {
  signal input text[n];
  signal input pattern[m];
  signal output out;
  signal found[n - m + 1] <== Matches(n, m)(text, pattern);
  var sum = 0;
  for (var i = 0; i < n - m + 1; i++) { sum += found[i]; }
  out <== sum;
}

// Whether a pattern of m bytes stands in a text of n bytes.
//
// Parameters and inputs: as for Matches.
// Constrains: out is 1 where it stands at one place or more, else 0.
template Contains(n, m) {
  signal input text[n];
  signal input pattern[m];
  signal output out;
  out <== MultiOR(n - m + 1)(Matches(n, m)(text, pattern));
}

// Whether a pattern of m bytes stands in a text of n bytes at a place that is given.
//
// Parameters: as for Matches.
// Inputs: bytes, checked by the caller; `place` is any number of the field.
// Constrains: `place` is 0 to n - m, and out is 1 where text[place + j] is pattern[j] for all j,
//   else 0. Other places are refused.
template MatchesAt(n, m) {
  signal input text[n];
  signal input pattern[m];
  signal input place;
  signal output out;
  // The piece of the text at the place: a sum with a 1 at the place and zeros at all others.
  signal hot[n - m + 1] <== Decoder(n - m + 1)(place);
  signal term[m][n - m + 1];
  signal piece[m];
  for (var j = 0; j < m; j++) {
    var sum = 0;
    for (var i = 0; i < n - m + 1; i++) {
      term[j][i] <== hot[i]*text[i + j];
      sum += term[j][i];
    }
    piece[j] <== sum;
  }
  out <== EqualStrings(m)(piece, pattern);
}
