node f (x, a, b, c, d, e : b1) returns (z0, z1, z2, z3, z4, z5 : b1)
let
    z0 = x & a;
    z1 = (x ^ a) & b;
    z2 = (x ^ b) & c;
    z3 = (x ^ c) & d;
    z4 = (x ^ d) & e;
    z5 = (x ^ e) & x
tel
