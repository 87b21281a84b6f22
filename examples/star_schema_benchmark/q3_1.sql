-- What customers and suppliers of one region did with each other, by nation and year
SELECT c_nation, s_nation, d_year, SUM(lo_revenue) AS revenue
FROM lineorder, date, supplier, customer
WHERE lo_custkey = c_custkey AND lo_suppkey = s_suppkey AND lo_orderdate = d_datekey
  AND c_region = 'ASIA' AND s_region = 'ASIA' AND d_year >= 1992 AND d_year <= 1997
GROUP BY c_nation, s_nation, d_year
ORDER BY d_year, revenue DESC
