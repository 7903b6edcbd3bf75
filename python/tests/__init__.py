"""Tests of the package, for `python3 -m unittest` in the folder python/. PESPBENCH names the program; the default is the built one."""
