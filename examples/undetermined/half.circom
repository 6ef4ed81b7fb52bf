// The half of a number, and whether it is odd. The second constraint is missing: see README.md.
template Half() {
  signal input a;
  signal output half;
  signal output odd;
  half <-- a \ 2;
  odd <-- a % 2;
  2*half + odd === a;
}
component main = Half();
