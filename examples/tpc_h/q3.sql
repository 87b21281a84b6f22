-- The orders of one segment that weren't shipped, the dearest first. (The benchmark sums prices with discount, and has the
-- first ten alone.)
SELECT l_orderkey, SUM(l_extendedprice) AS revenue, o_orderdate, o_shippriority
FROM customer, orders, lineitem
WHERE c_mktsegment = 'BUILDING' AND c_custkey = o_custkey AND l_orderkey = o_orderkey
  AND o_orderdate < '1995-03-15' AND l_shipdate > '1995-03-15'
GROUP BY l_orderkey, o_orderdate, o_shippriority
ORDER BY revenue DESC, o_orderdate
