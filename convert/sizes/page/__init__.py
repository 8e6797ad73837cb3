"""The page of `sizes`: its tables, its data, and its script and style, a file for each matter."""
