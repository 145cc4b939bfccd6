@session 3
CREATE TABLE T (A NUMBER);
@session 64
INSERT INTO T VALUES (7);
@order 64 3
@end
