template Mul() {
  signal input a;
  signal input b;
  signal output c;
  c <== a*b;
}
component main = Mul();
