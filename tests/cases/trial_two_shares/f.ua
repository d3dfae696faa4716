node f (x:u8, y:u8) returns (z:u8) let z = x & y tel
