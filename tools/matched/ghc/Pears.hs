module Pears where

import Data.List

weigh :: String -> Int
weigh pear = pear

light = {- é -} wieght

heavy :: Int
heavy = case 1 of
	x -> "one"
