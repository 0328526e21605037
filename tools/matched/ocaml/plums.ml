let weigh pear =
  pear +
  ) 
