"""A script of 8,388,608 bytes, which is not too long."""
import sys

head, tail = "@setup\n", "\n@end\n"
sys.stdout.write(head + " " * (8388608 - len(head) - len(tail)) + tail)
