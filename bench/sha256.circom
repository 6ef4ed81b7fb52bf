// SHA-256 of whole blocks of 512 bits, without padding. A word is its 32 bits, the low one first.
pragma circom 2.1.0;

// The bits of the sum of k words modulo 2^32; all bits above are dropped.
template Sum(k, carry) {
  signal input x[k][32]; signal output out[32];
  signal high[carry];
  var total = 0; var power = 1; var bits = 0;
  for (var i = 0; i < 32; i++) {
    for (var j = 0; j < k; j++) { total += x[j][i]*power; }
    power *= 2;
  }
  power = 1;
  for (var i = 0; i < 32; i++) {
    out[i] <-- (total >> i) & 1;
    out[i]*(out[i] - 1) === 0;
    bits += out[i]*power;
    power *= 2;
  }
  for (var i = 0; i < carry; i++) {
    high[i] <-- (total >> (32 + i)) & 1;
    high[i]*(high[i] - 1) === 0;
    bits += high[i]*power;
    power *= 2;
  }
  bits === total;
}

// The exclusive or of three turns of a word; where the last one is a shift, zeros come in.
template Mixed(first, second, third, shifts) {
  signal input x[32]; signal output out[32];
  signal both[32];
  for (var i = 0; i < 32; i++) {
    var a = x[(i + first) % 32];
    var b = x[(i + second) % 32];
    var c = shifts && i + third >= 32 ? 0 : x[(i + third) % 32];
    both[i] <== b*c;
    out[i] <== a*(1 - 2*b - 2*c + 4*both[i]) + b + c - 2*both[i];
  }
}

template Chosen() {
  signal input e[32]; signal input f[32]; signal input g[32]; signal output out[32];
  for (var i = 0; i < 32; i++) { out[i] <== e[i]*(f[i] - g[i]) + g[i]; }
}

template Majority() {
  signal input a[32]; signal input b[32]; signal input c[32]; signal output out[32];
  signal both[32];
  for (var i = 0; i < 32; i++) {
    both[i] <== b[i]*c[i];
    out[i] <== a[i]*(b[i] + c[i] - 2*both[i]) + both[i];
  }
}

function bits_of(n) {
  var bits[32];
  for (var i = 0; i < 32; i++) { bits[i] = (n >> i) & 1; }
  return bits;
}

function constant(t) {
  var k[64] = [
    0x428a2f98, 0x71374491, 0xb5c0fbcf, 0xe9b5dba5, 0x3956c25b, 0x59f111f1, 0x923f82a4, 0xab1c5ed5,
    0xd807aa98, 0x12835b01, 0x243185be, 0x550c7dc3, 0x72be5d74, 0x80deb1fe, 0x9bdc06a7, 0xc19bf174,
    0xe49b69c1, 0xefbe4786, 0x0fc19dc6, 0x240ca1cc, 0x2de92c6f, 0x4a7484aa, 0x5cb0a9dc, 0x76f988da,
    0x983e5152, 0xa831c66d, 0xb00327c8, 0xbf597fc7, 0xc6e00bf3, 0xd5a79147, 0x06ca6351, 0x14292967,
    0x27b70a85, 0x2e1b2138, 0x4d2c6dfc, 0x53380d13, 0x650a7354, 0x766a0abb, 0x81c2c92e, 0x92722c85,
    0xa2bfe8a1, 0xa81a664b, 0xc24b8b70, 0xc76c51a3, 0xd192e819, 0xd6990624, 0xf40e3585, 0x106aa070,
    0x19a4c116, 0x1e376c08, 0x2748774c, 0x34b0bcb5, 0x391c0cb3, 0x4ed8aa4a, 0x5b9cca4f, 0x682e6ff3,
    0x748f82ee, 0x78a5636f, 0x84c87814, 0x8cc70208, 0x90befffa, 0xa4506ceb, 0xbef9a3f7, 0xc67178f2
  ];
  return bits_of(k[t]);
}

function start(j) {
  var h[8] = [
    0x6a09e667, 0xbb67ae85, 0x3c6ef372, 0xa54ff53a, 0x510e527f, 0x9b05688c, 0x1f83d9ab, 0x5be0cd19
  ];
  return bits_of(h[j]);
}

// The words of a block, 16 given and 48 made of them.
template Schedule() {
  signal input block[16][32]; signal output w[64][32];
  for (var t = 0; t < 16; t++) { w[t] <== block[t]; }
  for (var t = 16; t < 64; t++) {
    w[t] <== Sum(4, 2)([
      Mixed(17, 19, 10, 1)(w[t - 2]), w[t - 7], Mixed(7, 18, 3, 1)(w[t - 15]), w[t - 16]
    ]);
  }
}

template Compression() {
  signal input before[8][32]; signal input block[16][32]; signal output after[8][32];
  signal w[64][32]; signal s[65][8][32]; signal first[64][32]; signal second[64][32];
  w <== Schedule()(block);
  s[0] <== before;
  for (var t = 0; t < 64; t++) {
    first[t] <== Sum(5, 3)([
      s[t][7], Mixed(6, 11, 25, 0)(s[t][4]), Chosen()(s[t][4], s[t][5], s[t][6]), constant(t), w[t]
    ]);
    second[t] <== Sum(2, 1)([
      Mixed(2, 13, 22, 0)(s[t][0]), Majority()(s[t][0], s[t][1], s[t][2])
    ]);
    s[t + 1][0] <== Sum(2, 1)([first[t], second[t]]);
    s[t + 1][1] <== s[t][0];
    s[t + 1][2] <== s[t][1];
    s[t + 1][3] <== s[t][2];
    s[t + 1][4] <== Sum(2, 1)([s[t][3], first[t]]);
    s[t + 1][5] <== s[t][4];
    s[t + 1][6] <== s[t][5];
    s[t + 1][7] <== s[t][6];
  }
  for (var j = 0; j < 8; j++) { after[j] <== Sum(2, 1)([before[j], s[64][j]]); }
}

template Sha256(blocks) {
  signal input in[blocks][16][32]; signal output out[8][32];
  signal h[blocks + 1][8][32];
  for (var j = 0; j < 8; j++) { h[0][j] <== start(j); }
  for (var b = 0; b < blocks; b++) { h[b + 1] <== Compression()(h[b], in[b]); }
  out <== h[blocks];
}
