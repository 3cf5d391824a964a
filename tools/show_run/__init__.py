"""Makes one page, or one picture, of a run: what `tools/show` is made of."""
