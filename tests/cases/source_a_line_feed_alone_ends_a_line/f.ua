nodef
(x;