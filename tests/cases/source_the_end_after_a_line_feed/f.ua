node f
