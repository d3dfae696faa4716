node f
(x:b1
  y