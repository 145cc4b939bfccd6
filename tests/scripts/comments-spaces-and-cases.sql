-- Before the first directive there may be comments and blank lines.

@setup
create TABLE Abc(x_1$# NUMBER,b VARCHAR2(9));--a comment; it's 'no text'
INSERT
  -- between any two words
  INTO abc
VALUES(1,'--;@end'),
  ( -2 , 'it''s' )
;insert into ABC values(3--4
,'''');
SELECT b,X_1$# from aBc WHERE x_1$#<>99AND X_1$#>=-2 ORDER BY 2;
SELECT SUM(X_1$#)FROM ABC;
@end
