// The bit that at least two of three inputs have.
node majority (x:b1, y:b1, z:b1) returns (m:b1)
let
    m = (x & y) ^ (x & z) ^ (y & z)
tel
