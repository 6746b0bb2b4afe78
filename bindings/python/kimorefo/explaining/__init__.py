"""What is wrong with a scene and how to mend it, in sentences."""
