"""How the library in process uses memory and threads, and what it answers."""
