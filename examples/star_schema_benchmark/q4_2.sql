-- The same of the last two years, by the supplier's nation and the category (the benchmark has d_year = 1997 OR d_year = 1998)
SELECT d_year, s_nation, p_category, SUM(lo_revenue) AS revenue, SUM(lo_supplycost) AS supplycost
FROM lineorder, date, supplier, customer, part
WHERE lo_custkey = c_custkey AND lo_suppkey = s_suppkey AND lo_partkey = p_partkey AND lo_orderdate = d_datekey
  AND c_region = 'AMERICA' AND s_region = 'AMERICA' AND d_year >= 1997 AND p_mfgr <= 'MFGR#2'
GROUP BY d_year, s_nation, p_category
ORDER BY d_year, s_nation, p_category
