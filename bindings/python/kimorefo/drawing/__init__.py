"""Pictures of scenes and reports: SVG, and a page on which the tree grows."""
