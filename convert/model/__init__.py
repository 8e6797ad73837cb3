"""Layers as the program has them: entries, manifests, contents by digest, hard links."""
