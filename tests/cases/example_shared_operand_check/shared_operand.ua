// Two products of one operand. The other two operands span it together, so a probe of each product shows it.
node shared_operand (x:b1, y:b1) returns (a:b1, b:b1)
let
    a = x & y;
    b = x & (x ^ y)
tel
