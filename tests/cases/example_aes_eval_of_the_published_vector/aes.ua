// AES-128 with its key schedule, one bit a register. Byte r + 4 * c of a block is row r of column c; bit 7 of a byte,
// the most significant one, is element 0.
// NIST FIPS 197 (2001). The S-box is the circuit of 115 gates of Boyar and Peralta: A new combinational logic
// minimization technique with applications to cryptology. SEA 2010.
node sub_byte (x:b8) returns (s:b8)
vars y : b22, t : b68, z : b18
let
    y[14] = x[3] ^ x[5]; y[13] = x[0] ^ x[6]; y[9] = x[0] ^ x[3]; y[8] = x[0] ^ x[5]; t[0] = x[1] ^ x[2];
    y[1] = t[0] ^ x[7]; y[4] = y[1] ^ x[3]; y[12] = y[13] ^ y[14]; y[2] = y[1] ^ x[0]; y[5] = y[1] ^ x[6];
    y[3] = y[5] ^ y[8]; t[1] = x[4] ^ y[12]; y[15] = t[1] ^ x[5]; y[20] = t[1] ^ x[1]; y[6] = y[15] ^ x[7];
    y[10] = y[15] ^ t[0]; y[11] = y[20] ^ y[9]; y[7] = x[7] ^ y[11]; y[17] = y[10] ^ y[11];
    y[19] = y[10] ^ y[8]; y[16] = t[0] ^ y[11]; y[21] = y[13] ^ y[16]; y[18] = x[0] ^ y[16];
    t[2] = y[12] & y[15]; t[3] = y[3] & y[6]; t[4] = t[3] ^ t[2]; t[5] = y[4] & x[7]; t[6] = t[5] ^ t[2];
    t[7] = y[13] & y[16]; t[8] = y[5] & y[1]; t[9] = t[8] ^ t[7]; t[10] = y[2] & y[7]; t[11] = t[10] ^ t[7];
    t[12] = y[9] & y[11]; t[13] = y[14] & y[17]; t[14] = t[13] ^ t[12]; t[15] = y[8] & y[10];
    t[16] = t[15] ^ t[12]; t[17] = t[4] ^ t[14]; t[18] = t[6] ^ t[16]; t[19] = t[9] ^ t[14];
    t[20] = t[11] ^ t[16]; t[21] = t[17] ^ y[20]; t[22] = t[18] ^ y[19]; t[23] = t[19] ^ y[21];
    t[24] = t[20] ^ y[18]; t[25] = t[21] ^ t[22]; t[26] = t[21] & t[23]; t[27] = t[24] ^ t[26];
    t[28] = t[25] & t[27]; t[29] = t[28] ^ t[22]; t[30] = t[23] ^ t[24]; t[31] = t[22] ^ t[26];
    t[32] = t[31] & t[30]; t[33] = t[32] ^ t[24]; t[34] = t[23] ^ t[33]; t[35] = t[27] ^ t[33];
    t[36] = t[24] & t[35]; t[37] = t[36] ^ t[34]; t[38] = t[27] ^ t[36]; t[39] = t[29] & t[38];
    t[40] = t[25] ^ t[39]; t[41] = t[40] ^ t[37]; t[42] = t[29] ^ t[33]; t[43] = t[29] ^ t[40];
    t[44] = t[33] ^ t[37]; t[45] = t[42] ^ t[41]; z[0] = t[44] & y[15]; z[1] = t[37] & y[6];
    z[2] = t[33] & x[7]; z[3] = t[43] & y[16]; z[4] = t[40] & y[1]; z[5] = t[29] & y[7]; z[6] = t[42] & y[11];
    z[7] = t[45] & y[17]; z[8] = t[41] & y[10]; z[9] = t[44] & y[12]; z[10] = t[37] & y[3];
    z[11] = t[33] & y[4]; z[12] = t[43] & y[13]; z[13] = t[40] & y[5]; z[14] = t[29] & y[2];
    z[15] = t[42] & y[9]; z[16] = t[45] & y[14]; z[17] = t[41] & y[8]; t[46] = z[15] ^ z[16];
    t[47] = z[10] ^ z[11]; t[48] = z[5] ^ z[13]; t[49] = z[9] ^ z[10]; t[50] = z[2] ^ z[12];
    t[51] = z[2] ^ z[5]; t[52] = z[7] ^ z[8]; t[53] = z[0] ^ z[3]; t[54] = z[6] ^ z[7]; t[55] = z[16] ^ z[17];
    t[56] = z[12] ^ t[48]; t[57] = t[50] ^ t[53]; t[58] = z[4] ^ t[46]; t[59] = z[3] ^ t[54];
    t[60] = t[46] ^ t[57]; t[61] = z[14] ^ t[57]; t[62] = t[52] ^ t[58]; t[63] = t[49] ^ t[58];
    t[64] = z[4] ^ t[59]; t[65] = t[61] ^ t[62]; t[66] = z[1] ^ t[63]; s[0] = t[59] ^ t[63];
    s[6] = t[56] ^ ~t[62]; s[7] = t[48] ^ ~t[60]; t[67] = t[64] ^ t[65]; s[3] = t[53] ^ t[66];
    s[4] = t[51] ^ t[66]; s[5] = t[47] ^ t[65]; s[1] = t[64] ^ ~s[3]; s[2] = t[55] ^ ~t[67]
tel

node sub_bytes (a:b8[16]) returns (b:b8[16])
let
    forall i in [0,15] { b[i] = sub_byte(a[i]) }
tel

node shift_rows (a:b8[16]) returns (b:b8[16])
let
    forall c in [0,3] {
        forall r in [0,3] { b[4 * c + r] = a[4 * ((c + r) % 4) + r] }
    }
tel

// A byte times x, modulo x^8 + x^4 + x^3 + x + 1.
node times_x (a:b8) returns (b:b8)
let
    b = (a[1], a[2], a[3], a[4] ^ a[0], a[5] ^ a[0], a[6], a[7] ^ a[0], a[0])
tel

node mix_column (a:b8[4]) returns (b:b8[4])
let
    forall r in [0,3] {
        b[r] = times_x(a[r] ^ a[(r+1) % 4]) ^ a[(r+1) % 4] ^ a[(r+2) % 4] ^ a[(r+3) % 4]
    }
tel

node mix_columns (a:b8[16]) returns (b:b8[16])
let
    forall c in [0,3] { b[4*c..4*c+3] = mix_column(a[4*c..4*c+3]) }
tel

node next_key (k:b8[16], constant:b8) returns (n:b8[16])
let
    n[0..3] = k[0..3] ^ (sub_byte(k[13]) ^ constant, sub_byte(k[14]), sub_byte(k[15]), sub_byte(k[12]));
    forall c in [1,3] { n[4*c..4*c+3] = k[4*c..4*c+3] ^ n[4*c-4..4*c-1] }
tel

node aes (plain:b8[16], key:b8[16]) returns (cipher:b8[16])
vars k : b8[11][16], s : b8[10][16], constant : b8[10]
let
    constant[0] = (0,0,0,0,0,0,0,1);
    forall i in [0,8] { constant[i+1] = times_x(constant[i]) }
    k[0] = key;
    forall i in [0,9] { k[i+1] = next_key(k[i], constant[i]) }
    s[0] = plain ^ k[0];
    forall i in [0,8] { s[i+1] = mix_columns(shift_rows(sub_bytes(s[i]))) ^ k[i+1] }
    cipher = shift_rows(sub_bytes(s[9])) ^ k[10]
tel
