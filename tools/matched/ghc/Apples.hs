module Apples where

import Data.List

weigh :: Int -> Int
weigh apple = let unused = 1 in
    apple
weigh apple = 1
