let weigh pear =
  let unused = 1 in
  (* é *) match pear with
  | Some x ->
    x
