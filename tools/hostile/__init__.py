"""The behavior of the built program when memory, devices and files fail."""
