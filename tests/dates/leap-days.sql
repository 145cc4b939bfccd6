@setup
CREATE TABLE T (N NUMBER, D DATE);
-- Of the years that end a century every fourth is a leap year.
INSERT INTO T VALUES (1, DATE '1900-02-28'), (2, DATE '2000-02-28'), (3, DATE '2023-02-28'), (4, DATE '2024-02-28'), (5, DATE '2024-02-29'), (6, DATE '1999-12-31'), (7, DATE '0400-12-30'), (8, DATE '2000-12-30');
UPDATE T SET D = D + 1;
SELECT N, D FROM T;
UPDATE T SET D = D - 366 WHERE N < 3;
SELECT N, D FROM T WHERE N < 3;
-- 400 years have 146097 days.
UPDATE T SET D = D + 146097 WHERE N = 4;
SELECT D FROM T WHERE N = 4;
UPDATE T SET D = D + 0 WHERE N = 4;
@end
