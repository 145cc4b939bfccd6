"""8,388,608 blanks: they are read whole, and have no end."""
print(" " * 8388608, end="")
