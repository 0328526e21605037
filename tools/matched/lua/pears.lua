local function weigh(pear)
  return pear.weight +
end
