module Figs where

{- é -} light	= = 1
