"""The tests of the built programs, by topic; tools/test_program runs them."""
