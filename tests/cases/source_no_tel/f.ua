node f (x:u8) returns (z:u8) let z = x
node g (x:u8) returns (z:u8) let z = x tel