// Sorting, and permutations, by networks. The network is Batcher's merge exchange (Knuth, The Art
// of Computer Programming, section 5.2.2, algorithm M), which takes any number of places.
//
// A product over all numbers at one point would be cheaper, but it shows nothing unless the point
// is drawn at random after the numbers are fixed, and a circuit has no such point.
pragma circom 2.1.0;

include "comparators.circom";
include "range.circom";
include "select.circom";

// The places that the network's exchanges compare, two by two, in their order: the first 2c
// numbers, where c is exchanges(k).
function network(k) {
  var places[k*k + 2];
  var count = 0;
  var top = 1;
  while (2*top < k) { top *= 2; }
  for (var p = k > 1 ? top : 0; p > 0; p = p \ 2) {
    var q = top;
    var r = 0;
    var d = p;
    while (d > 0) {
      for (var i = 0; i + d < k; i++) {
        if ((i & p) == r) {
          places[2*count] = i;
          places[2*count + 1] = i + d;
          count++;
        }
      }
      d = q == p ? 0 : q - p;
      q = q \ 2;
      r = p;
    }
  }
  places[k*k + 1] = count;
  return places;
}

// How many exchanges the network for k places has.
function exchanges(k) {
  var places[k*k + 2] = network(k);
  return places[k*k + 1];
}

// k numbers in their order.
//
// Parameters: k is 1 to 512, n is 1 to 62.
// Inputs: any numbers of the field.
// Constrains: each in[i] is 0 to 2^n - 1, and out has the same numbers, the least first. Other
//   inputs are refused.
// The caller must: nothing.
template Sort(k, n) {
  signal input in[k];
  signal output out[k];
  AssertRanges(k, n)(in);
  var count = exchanges(k);
  var places[k*k + 2] = network(k);
  signal low[count];
  signal high[count];
  var row[k] = in;
  for (var c = 0; c < count; c++) {
    var i = places[2*c];
    var j = places[2*c + 1];
    (low[c], high[c]) <== MinMax(n)([row[i], row[j]]);
    row[i] = low[c];
    row[j] = high[c];
  }
  for (var i = 0; i < k; i++) { out[i] <== row[i]; }
}

// Refuses k numbers that aren't in their order. Equal ones may stand side by side.
//
// Parameters: k is 1 or more, n is 1 to 62.
// Inputs: any numbers of the field.
// Constrains: each in[i] is 0 to 2^n - 1, and in[i] <= in[i + 1].
// The caller must: nothing.
template AssertSorted(k, n) {
  assert(n <= 62);
  signal input in[k];
  AssertRanges(k, n)(in);
  for (var i = 0; i + 1 < k; i++) { AssertRange(n)(in[i + 1] - in[i]); }
}

// Refuses two rows of k numbers that don't have the same numbers, each as often.
//
// The numbers of a go through a network of switchers and come out as b. Whoever makes the witness
// finds out how the switchers have to stand: each is 0 or 1, and however they stand, what comes out
// are the numbers of a. That each order can come out is so since the network sorts.
//
// Parameters: k is 1 to 512.
// Inputs: any numbers of the field.
// Constrains: b has the numbers of a, each as often. How the switchers stand isn't determined: two
//   equal numbers may change places.
// The caller must: nothing.
template AssertPermutation(k) {
  signal input a[k];
  signal input b[k];
  var count = exchanges(k);
  var places[k*k + 2] = network(k);
  // goal[i] is the place in b of the number that came from a[i]: of equal ones the first that is
  // free. The network sorts the goals.
  var goal[k];
  var taken[k];
  for (var i = 0; i < k; i++) {
    var found = 0;
    for (var j = 0; j < k; j++) {
      if (found == 0 && taken[j] == 0 && a[i] == b[j]) {
        goal[i] = j;
        taken[j] = 1;
        found = 1;
      }
    }
  }
  signal sel[count];
  signal low[count];
  signal high[count];
  var row[k] = a;
  for (var c = 0; c < count; c++) {
    var i = places[2*c];
    var j = places[2*c + 1];
    var first = goal[i];
    var second = goal[j];
    sel[c] <-- first > second;
    goal[i] = first > second ? second : first;
    goal[j] = first > second ? first : second;
    AssertBit()(sel[c]);
    (low[c], high[c]) <== Switcher()(sel[c], row[i], row[j]);
    row[i] = low[c];
    row[j] = high[c];
  }
  for (var i = 0; i < k; i++) { row[i] === b[i]; }
}
