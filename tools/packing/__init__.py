"""The contents of the package that tools/package makes."""
