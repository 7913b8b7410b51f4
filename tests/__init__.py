"""The tests: `run` runs those of `merge_check` and `by_hand`."""
