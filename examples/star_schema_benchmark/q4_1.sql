-- The profit within one region, by year and nation (the benchmark has p_mfgr = 'MFGR#1' OR p_mfgr = 'MFGR#2')
SELECT d_year, c_nation, SUM(lo_revenue) AS revenue, SUM(lo_supplycost) AS supplycost
FROM lineorder, date, supplier, customer, part
WHERE lo_custkey = c_custkey AND lo_suppkey = s_suppkey AND lo_partkey = p_partkey AND lo_orderdate = d_datekey
  AND c_region = 'AMERICA' AND s_region = 'AMERICA' AND p_mfgr <= 'MFGR#2'
GROUP BY d_year, c_nation
ORDER BY d_year, c_nation
