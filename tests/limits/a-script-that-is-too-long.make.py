"""A script of 8,388,609 bytes, one more than it may have."""
import sys

head, tail = "@setup\n", "\n@end\n"
sys.stdout.write(head + " " * (8388609 - len(head) - len(tail)) + tail)
