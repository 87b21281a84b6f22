-- The same in one month (the benchmark sums lo_extendedprice * lo_discount)
SELECT SUM(lo_extendedprice) AS revenue
FROM lineorder, date
WHERE lo_orderdate = d_datekey
  AND d_yearmonthnum = 199401 AND lo_discount >= 4 AND lo_discount <= 6
  AND lo_quantity >= 26 AND lo_quantity <= 35
