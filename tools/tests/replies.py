"""The results of checks of the two trains of file_cases."""

TWO_REPLIES = b"tensions 2\n1 3 0\n2 7 3\nviolations 1\nactivity 2\ncost 3\n"
FIXED_REPLIES = b"tensions 2\n1 3 0\n2 7 3\nviolations 2\nactivity 2\nevent 1\ncost 3\n"
EMPTY_REPLIES = b"tensions 0\nviolations 0\ncost 0\n"
