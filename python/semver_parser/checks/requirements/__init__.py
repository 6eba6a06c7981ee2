"""What `compare-requirements` compares: the requirements of manifests, and their changes."""
