// A full adder over single bits.
node full_adder (a:b1, b:b1, carry:b1) returns (sum:b1, carry_out:b1)
vars half:b1
let
    half = a ^ b;
    sum = half ^ carry;
    carry_out = (a & b) ^ (half & carry)
tel
