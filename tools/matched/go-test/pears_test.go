package pears

import "testing"

func TestWeight(t *testing.T) {
	t.Log("weighed")
	t.Errorf("weight %d, not %d", 1, 2)
}

func TestPears(t *testing.T) {
	t.Run("inner", func(t *testing.T) {
		t.Fatal("no pears\nat all")
	})
}
