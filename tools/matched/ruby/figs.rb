def weigh(fig)
  raise "no figs"
end

weigh(1)
