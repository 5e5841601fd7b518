"""What is built on cells alone: `tuples` for rows, an `index` by values, `counters`, and `large` values."""
