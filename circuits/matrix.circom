// Vectors and matrices over the field. Products of more than a few hundred entries cost what they
// say: n*m*k constraints.
pragma circom 2.1.0;

// The sum of the products of two rows of n numbers.
//
// Parameters: n is 1 or more.
// Inputs: any numbers of the field.
// Constrains: out is the sum of a[i]*b[i].
// The caller must: nothing.
template InnerProduct(n) {
  signal input a[n];
  signal input b[n];
  signal output out;
  signal term[n];
  var sum = 0;
  for (var i = 0; i < n; i++) {
    term[i] <== a[i]*b[i];
    sum += term[i];
  }
  out <== sum;
}

// The product of a matrix with n rows of m numbers and one with m rows of k.
//
// Parameters: n, m and k are 1 or more.
// Inputs: any numbers of the field.
// Constrains: out[i][j] is the sum of a[i][l]*b[l][j].
// The caller must: nothing.
template MultiplyMatrices(n, m, k) {
  signal input a[n][m];
  signal input b[m][k];
  signal output out[n][k];
  signal term[n][k][m];
  for (var i = 0; i < n; i++) {
    for (var j = 0; j < k; j++) {
      var sum = 0;
      for (var l = 0; l < m; l++) {
        term[i][j][l] <== a[i][l]*b[l][j];
        sum += term[i][j][l];
      }
      out[i][j] <== sum;
    }
  }
}

// A matrix of known numbers, by a column of m numbers. It costs no product.
//
// Parameters: n and m are 1 or more; `matrix` has n rows of m numbers.
// Inputs: any numbers of the field.
// Constrains: out[i] is the sum of matrix[i][j]*in[j].
// The caller must: nothing.
template ApplyKnown(n, m, matrix) {
  signal input in[m];
  signal output out[n];
  for (var i = 0; i < n; i++) {
    var sum = 0;
    for (var j = 0; j < m; j++) { sum += matrix[i][j]*in[j]; }
    out[i] <== sum;
  }
}

// A matrix with rows and columns exchanged.
//
// Parameters: n and m are 1 or more.
// Inputs: any numbers of the field.
// Constrains: out[j][i] is in[i][j].
// The caller must: nothing.
template Transpose(n, m) {
  signal input in[n][m];
  signal output out[m][n];
  for (var i = 0; i < n; i++) {
    for (var j = 0; j < m; j++) { out[j][i] <== in[i][j]; }
  }
}

// The solution of a system of n linear equations in n unknowns.
//
// Parameters: n is 1 or more.
// Inputs: any numbers of the field. `inverse` is the matrix's inverse, which whoever makes the
//   witness gives.
// Constrains: matrix*inverse is 1, and out is inverse*right; so the matrix has an inverse, and out
//   is the only solution. Other inputs are refused.
// The caller must: nothing.
template SolveLinear(n) {
  signal input matrix[n][n];
  signal input inverse[n][n];
  signal input right[n];
  signal output out[n];
  signal product[n][n] <== MultiplyMatrices(n, n, n)(matrix, inverse);
  for (var i = 0; i < n; i++) {
    for (var j = 0; j < n; j++) { product[i][j] === (i == j); }
  }
  for (var i = 0; i < n; i++) { out[i] <== InnerProduct(n)(inverse[i], right); }
}
