-- The same of one nation's suppliers and one category, by city and brand
SELECT d_year, s_city, p_brand1, SUM(lo_revenue) AS revenue, SUM(lo_supplycost) AS supplycost
FROM lineorder, date, supplier, customer, part
WHERE lo_custkey = c_custkey AND lo_suppkey = s_suppkey AND lo_partkey = p_partkey AND lo_orderdate = d_datekey
  AND c_region = 'AMERICA' AND s_nation = 'UNITED STATES' AND d_year >= 1997 AND p_category = 'MFGR#14'
GROUP BY d_year, s_city, p_brand1
ORDER BY d_year, s_city, p_brand1
