"""What an image, a stack or a mounted tree shows, and how two of them differ."""
