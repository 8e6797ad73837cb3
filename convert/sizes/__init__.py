"""`sizes`: what each layer of an image adds, and its page."""
