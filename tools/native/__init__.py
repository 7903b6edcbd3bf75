"""The page's module as a program and a library of this machine, by wasm2c and a C compiler; nothing of them is proved."""
