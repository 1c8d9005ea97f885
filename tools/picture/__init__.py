"""The parts of tools/draw: `listing` with `frames` and `report` read, `cut` and `points` choose, `words` and `parts`
say what is drawn, `layout` where, `style` how, and `svg` writes it. `faults` has what is refused."""
