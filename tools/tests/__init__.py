"""The tests of the scripts. `tools/test` runs them."""
