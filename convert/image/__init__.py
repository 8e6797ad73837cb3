"""Container images, read, unpacked and packed."""
