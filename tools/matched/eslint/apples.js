const weigh = (apple) => apple.weight);
