@setup
X;
@end
