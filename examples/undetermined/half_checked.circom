// The half of a number below 256, and whether it is odd.
include "bits.circom";

template Half() {
  signal input a;
  signal output half;
  signal output odd;
  signal bits[8] <== Num2Bits(8)(a);
  odd <== bits[0];
  half <== (a - odd)/2;
}
component main = Half();
