node f
  (* x */