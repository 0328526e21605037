let weigh pear =
  let unused = 1 in
  (* é *) pear + "one"
