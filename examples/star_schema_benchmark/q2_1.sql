-- What the brands of one category brought, by year, from the suppliers of one region
SELECT SUM(lo_revenue) AS revenue, d_year, p_brand1
FROM lineorder, date, supplier, part
WHERE lo_orderdate = d_datekey AND lo_partkey = p_partkey AND lo_suppkey = s_suppkey
  AND p_category = 'MFGR#12' AND s_region = 'AMERICA'
GROUP BY d_year, p_brand1
ORDER BY d_year, p_brand1
