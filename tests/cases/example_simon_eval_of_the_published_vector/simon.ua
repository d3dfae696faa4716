// SIMON 32/64: 32 rounds on two words of 16 bits, with its key schedule.
// Beaulieu, Shors, Smith, Treatman-Clark, Weeks, Wingers: The SIMON and SPECK families of lightweight block
// ciphers. IACR ePrint 2013/404.
node round (x:u16, y:u16, k:u16) returns (a:u16, b:u16)
let
    a = y ^ ((x <<< 1) & (x <<< 8)) ^ (x <<< 2) ^ k;
    b = x
tel

// The words of the key stand in rising order: key[0] is the first round key.
node schedule (key:u16x4) returns (k:u16x32)
vars z : u16x28, t : u16x28
let
    z = (1,1,1,1,1,0,1,0,0,0,1,0,0,1,0,1,0,1,1,0,0,0,0,1,1,1,0,0);
    k[0..3] = key;
    forall i in [0,27] {
        t[i] = (k[i+3] >>> 3) ^ k[i+1];
        k[i+4] = ~k[i] ^ t[i] ^ (t[i] >>> 1) ^ z[i] ^ 3
    }
tel

node simon (plain:u16x2, key:u16x4) returns (cipher:u16x2)
vars k : u16x32, s : u16x2[33]
let
    k = schedule(key);
    s[0] = plain;
    forall i in [0,31] { s[i+1] = round(s[i], k[i]) }
    cipher = s[32]
tel
