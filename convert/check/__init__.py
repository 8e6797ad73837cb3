"""Whether an image, or a stack of layers, is fit to ship."""
