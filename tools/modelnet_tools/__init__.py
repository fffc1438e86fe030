"""What the tools share: readers of the program's files, the sums made of them, and the pictures."""
