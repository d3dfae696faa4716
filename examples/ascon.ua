// The permutation of Ascon: twelve rounds on five words of 64 bits.
// Dobraunig, Eichlseder, Mendel, Schläffer: Ascon v1.2 (2021); NIST SP 800-232 (2025), section 3.
node substitution (s:u64x5) returns (t:u64x5)
vars a, b : u64x5
let
    a = (s[0] ^ s[4], s[1], s[2] ^ s[1], s[3], s[4] ^ s[3]);
    forall i in [0,4] {
        b[i] = a[i] ^ (~a[(i+1) % 5] & a[(i+2) % 5])
    }
    t = (b[0] ^ b[4], b[1] ^ b[0], ~b[2], b[3] ^ b[2], b[4])
tel

node diffusion (s:u64x5) returns (t:u64x5)
let
    t[0] = s[0] ^ (s[0] >>> 19) ^ (s[0] >>> 28);
    t[1] = s[1] ^ (s[1] >>> 61) ^ (s[1] >>> 39);
    t[2] = s[2] ^ (s[2] >>> 1) ^ (s[2] >>> 6);
    t[3] = s[3] ^ (s[3] >>> 10) ^ (s[3] >>> 17);
    t[4] = s[4] ^ (s[4] >>> 7) ^ (s[4] >>> 41)
tel

node ascon (state:u64x5) returns (out:u64x5)
vars s : u64x5[13], constant : u64x12
let
    constant = (0xf0, 0xe1, 0xd2, 0xc3, 0xb4, 0xa5, 0x96, 0x87, 0x78, 0x69, 0x5a, 0x4b);
    s[0] = state;
    forall i in [0,11] {
        s[i+1] = diffusion(substitution((s[i][0..1], s[i][2] ^ constant[i], s[i][3..4])))
    }
    out = s[12]
tel
