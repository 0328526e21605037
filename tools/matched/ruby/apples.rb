def weigh(apple)
  apple.wieght
end

puts weigh(1)
