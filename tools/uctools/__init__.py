"""What the tools beside `uc` share. They need nothing but Python's standard library."""
