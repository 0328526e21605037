local function weigh(apple)
  return apple.weight.grams
end

print(weigh({}))
