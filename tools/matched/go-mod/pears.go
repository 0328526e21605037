package pears
