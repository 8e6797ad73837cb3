"""Folders of layers, scanned and built, stores of engines, and mounted trees."""
