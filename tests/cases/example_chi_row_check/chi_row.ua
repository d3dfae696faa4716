/* One row of the step chi of Keccak (FIPS 202, section 3.2.4): the S-box of five bits. */
node chi_row (x0:b1, x1:b1, x2:b1, x3:b1, x4:b1) returns (z0:b1, z1:b1, z2:b1, z3:b1, z4:b1)
let
    z0 = x0 ^ (~x1 & x2);
    z1 = x1 ^ (~x2 & x3);
    z2 = x2 ^ (~x3 & x4);
    z3 = x3 ^ (~x4 & x0);
    z4 = x4 ^ (~x0 & x1)
tel
