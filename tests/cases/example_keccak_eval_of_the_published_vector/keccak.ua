// KECCAK-f[200]: 18 rounds on 25 lanes of 8 bits. Lane (x, y) is element x + 5 * y.
// Bertoni, Daemen, Peeters, Van Assche: The KECCAK reference, version 3.0 (2011).
node parity (a:u8x5[5]) returns (c:u8x5)
let
    forall x in [0,4] { c[x] = a[0][x] ^ a[1][x] ^ a[2][x] ^ a[3][x] ^ a[4][x] }
tel

node theta (a:u8x5[5]) returns (b:u8x5[5])
vars c, d : u8x5
let
    c = parity(a);
    forall x in [0,4] { d[x] = c[(x+4) % 5] ^ (c[(x+1) % 5] <<< 1) }
    forall y in [0,4] { b[y] = a[y] ^ d }
tel

// The steps rho and pi: lane (x, y) turns by its amount and goes to lane (y, 2x + 3y).
node turn (a:u8x25) returns (b:u8x5[5])
let
    b[0] = (a[0], a[6] <<< 4, a[12] <<< 3, a[18] <<< 5, a[24] <<< 6);
    b[1] = (a[3] <<< 4, a[9] <<< 4, a[10] <<< 3, a[16] <<< 5, a[22] <<< 5);
    b[2] = (a[1] <<< 1, a[7] <<< 6, a[13] <<< 1, a[19], a[20] <<< 2);
    b[3] = (a[4] <<< 3, a[5] <<< 4, a[11] <<< 2, a[17] <<< 7, a[23]);
    b[4] = (a[2] <<< 6, a[8] <<< 7, a[14] <<< 7, a[15] <<< 1, a[21] <<< 2)
tel

node chi (a:u8x5[5]) returns (b:u8x5[5])
let
    forall y in [0,4] {
        forall x in [0,4] { b[y][x] = a[y][x] ^ (~a[y][(x+1) % 5] & a[y][(x+2) % 5]) }
    }
tel

node round (a:u8x25, constant:u8) returns (b:u8x25)
vars s : u8x25
let
    s = chi(turn(theta(a)));
    b = (s[0] ^ constant, s[1..24])
tel

node keccak (a:u8x25) returns (b:u8x25)
vars s : u8x25[19], constant : u8x18
let
    constant = (0x01, 0x82, 0x8a, 0x00, 0x8b, 0x01, 0x81, 0x09, 0x8a,
                0x88, 0x09, 0x0a, 0x8b, 0x8b, 0x89, 0x03, 0x02, 0x80);
    s[0] = a;
    forall i in [0,17] { s[i+1] = round(s[i], constant[i]) }
    b = s[18]
tel
