-- What larger discounts cost in one year (the benchmark sums lo_extendedprice * lo_discount)
SELECT SUM(lo_extendedprice) AS revenue
FROM lineorder, date
WHERE lo_orderdate = d_datekey
  AND d_year = 1993 AND lo_discount >= 1 AND lo_discount <= 3 AND lo_quantity < 25
