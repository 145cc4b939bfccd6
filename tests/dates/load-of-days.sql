@setup
CREATE TABLE T (D DATE, A NUMBER, E DATE NOT NULL);
@load T
2024-02-29,1,2000-02-29
,2,1970-01-01
0001-01-01,3,"9999-12-31"
@endload
SELECT D, A, E FROM T;
-- A field that names no day is of the wrong kind.
@load T
2023-02-29,1,2024-01-01
@endload
@load T
2024-02-28,1,2024-01-01
2024-2-28,1,2024-01-01
@endload
@load T
20240228,1,2024-01-01
@endload
@load T
2024-02-28 ,1,2024-01-01
@endload
@load T
2024-02-28,1,DATE '2024-01-01'
@endload
@load T
2024-02-28,2024-02-28,2024-01-01
@endload
@load T
0000-12-31,1,2024-01-01
@endload
-- It is told before NULL in an earlier row, and the number of fields before it.
@load T
2024-02-28,1,
2024-02-30,1,2024-01-01
@endload
@load T
2024-02-30,1
@endload
@load T
2024-02-28,1,
@endload
SELECT COUNT(*) FROM T;
@end
