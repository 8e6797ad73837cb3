"""What all packages share: faults, notes, files that come whole or not at all, pieces of contents."""
