"""From real layers to manifests, and back: folders, mounted trees and images. Tested, not proved."""

VERSION = "0.1.0"  # that of the program
