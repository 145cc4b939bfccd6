"""8,388,609 blanks: too long, whatever they would be."""
print(" " * 8388609, end="")
