-- The same in one week (the benchmark sums lo_extendedprice * lo_discount)
SELECT SUM(lo_extendedprice) AS revenue
FROM lineorder, date
WHERE lo_orderdate = d_datekey
  AND d_weeknuminyear = 6 AND d_year = 1994 AND lo_discount >= 5 AND lo_discount <= 7
  AND lo_quantity >= 26 AND lo_quantity <= 35
