/* Each form of the grammar once. */
_inline node g (a, b : u8x2[3][4], c : v2) returns d : b3, e : u64[1]
vars h, i : u8, j : b1
let
    forall k in [0, 3] {
        forall l in [k - 1, (k + 2) * 3 / 4 % 5] { h[k][l] = a[0x1F] }
        (d, e[0 .. k][1]) = (~a, b[k..0], c);
    };
    i = a | b ^ c & a << 1 >> k <<< (k + 1) >>> 4;
    j = f(a, ~~b, (c)) & refresh(a ^ 7, k * 2 - 1)
tel
_no_inline table T (in : v2) returns (out : v1) { 0, 1, 0x1, 18446744073709551615 }
perm P (x : b2) returns y : b2 { 2, 1 }
node empty (x : b1) returns (z : b1) let tel
