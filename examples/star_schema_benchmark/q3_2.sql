-- The same within one nation, by city
SELECT c_city, s_city, d_year, SUM(lo_revenue) AS revenue
FROM lineorder, date, supplier, customer
WHERE lo_custkey = c_custkey AND lo_suppkey = s_suppkey AND lo_orderdate = d_datekey
  AND c_nation = 'UNITED STATES' AND s_nation = 'UNITED STATES' AND d_year >= 1992 AND d_year <= 1997
GROUP BY c_city, s_city, d_year
ORDER BY d_year, revenue DESC
