// Polynomials and powers.
pragma circom 2.1.0;

// The powers of a number, from the first one on.
//
// Parameters: n is 1 or more.
// Input: any number of the field.
// Constrains: out[i] is in^(i + 1).
// The caller must: nothing.
template Powers(n) {
  signal input in;
  signal output out[n];
  out[0] <== in;
  for (var i = 1; i < n; i++) { out[i] <== out[i - 1]*in; }
}

// The value of a polynomial with n coefficients, that of x^0 first, by Horner's rule.
//
// Parameters: n is 1 or more.
// Inputs: any numbers of the field.
// Constrains: out is the sum of coefficient[i]*x^i.
// The caller must: nothing.
template Evaluate(n) {
  signal input coefficient[n];
  signal input x;
  signal output out;
  signal sum[n];
  sum[n - 1] <== coefficient[n - 1];
  for (var i = n - 2; i >= 0; i--) { sum[i] <== sum[i + 1]*x + coefficient[i]; }
  out <== sum[0];
}

// The value of a polynomial whose coefficients are known, that of x^0 first: x^2 and on cost one
// constraint each, and x^1 none.
//
// Parameters: n is 1 or more; `coefficients` are n numbers.
// Input: any number of the field.
// Constrains: out is the sum of coefficients[i]*x^i.
// The caller must: nothing.
template EvaluateKnown(n, coefficients) {
  signal input x;
  signal output out;
  signal power[n];
  var sum = coefficients[0];
  power[0] <== 1;
  for (var i = 1; i < n; i++) {
    power[i] <== power[i - 1]*x;
    sum += coefficients[i]*power[i];
  }
  out <== sum;
}

// The coefficients of a product: those of a polynomial with n and of one with m coefficients.
//
// Parameters: n and m are 1 or more.
// Inputs: any numbers of the field.
// Constrains: out[k] is the sum of a[i]*b[k - i].
// The caller must: nothing.
template MultiplyPolynomials(n, m) {
  signal input a[n];
  signal input b[m];
  signal output out[n + m - 1];
  signal term[n][m];
  var sum[n + m - 1];
  for (var i = 0; i < n; i++) {
    for (var j = 0; j < m; j++) {
      term[i][j] <== a[i]*b[j];
      sum[i + j] += term[i][j];
    }
  }
  for (var k = 0; k < n + m - 1; k++) { out[k] <== sum[k]; }
}

// The value at x of the polynomial of degree below n that has n given values at 0, 1, .. n - 1.
//
// Value k counts with the product of (x - i)/(k - i) over all other i. The products of the factors
// before and behind k are made once.
//
// Parameters: n is 2 to 4096.
// Inputs: any numbers of the field.
// Constrains: out is the value.
// The caller must: nothing.
template Interpolate(n) {
  assert(2 <= n && n <= 4096);
  signal input value[n];
  signal input x;
  signal output out;
  signal before[n];
  signal behind[n];
  signal others[n];
  signal term[n];
  before[0] <== 1;
  behind[n - 1] <== 1;
  for (var i = 1; i < n; i++) {
    before[i] <== before[i - 1]*(x - (i - 1));
    behind[n - 1 - i] <== behind[n - i]*(x - (n - i));
  }
  var sum = 0;
  for (var k = 0; k < n; k++) {
    var divisor = 1;
    for (var i = 0; i < n; i++) {
      if (i != k) { divisor *= k - i; }
    }
    others[k] <== before[k]*behind[k];
    term[k] <== others[k]*value[k];
    sum += term[k] / divisor;
  }
  out <== sum;
}
