@setup
-- A script is one run of the warehouse: it starts empty, and ends at the last line.
-- Lines that begin with @ are directives. Here all statements belong to the setup.

-- What a sales report is made from. A VARCHAR2(n) column holds texts of 1 to n bytes, a NUMBER column whole numbers
-- of up to 15 digits.
CREATE TABLE SALES (REGION VARCHAR2(10), AMOUNT NUMBER);

-- An INSERT is all or nothing. Here it has 7 rows. NULL means that nothing is known: an amount that wasn't reported,
-- and a sale of no region.
INSERT INTO SALES VALUES
  ('NORTH', 120),
  ('SOUTH', 80),
  ('NORTH', 30),
  ('EAST', NULL),
  ('SOUTH', NULL),
  ('NORTH', NULL),
  (NULL, 40);

-- The report: one row for each region, in order, the rows of no region last. SUM leaves out what is NULL and is empty
-- where nothing is left; COUNT(*) counts all rows.
SELECT REGION, SUM(AMOUNT), COUNT(*) FROM SALES GROUP BY REGION;
@end
