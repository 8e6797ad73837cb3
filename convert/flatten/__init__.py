"""`flatten` of images and of stacks on disk."""
