node f (x:b1, y:b1) returns (z:b1) let z = x & y tel
