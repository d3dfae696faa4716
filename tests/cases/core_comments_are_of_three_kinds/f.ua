// one line
node f (x:b1, /* several
lines */ y:b1) returns (* of the other
kind *) (z:b1) let z = x & y tel // the end