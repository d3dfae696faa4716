// PRESENT: 31 rounds on 64-bit blocks, one bit a register. The 32 round keys are inputs.
// Bit 63 of a block, the most significant one, is element 0.
// Bogdanov, Knudsen, Leander, Paar, Poschmann, Robshaw, Seurin, Vikkelsoe: PRESENT, an ultra-lightweight block
// cipher. CHES 2007.
table sbox (x:b4) returns (y:b4) {
    0xc, 5, 6, 0xb, 9, 0, 0xa, 0xd, 3, 0xe, 0xf, 8, 4, 7, 1, 2
}

node layer (x:b4[16]) returns (y:b4[16])
let
    forall i in [0,15] { y[i] = sbox(x[i]) }
tel

// Bit i moves to bit 16 * i mod 63, and bit 63 stays.
node permute (x:b64) returns (y:b64)
let
    y[0] = x[0];
    forall i in [0,62] { y[63 - 16 * i % 63] = x[63 - i] }
tel

node present (plain:b64, key:b64[32]) returns (cipher:b64)
vars s : b64[32]
let
    s[0] = plain;
    forall i in [0,30] {
        s[i+1] = permute(layer(s[i] ^ key[i]))
    }
    cipher = s[31] ^ key[31]
tel
