def weigh(pear)
  unused = 1
  "é"; pear.weight +
end
