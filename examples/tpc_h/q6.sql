-- What some discounts cost in one year. (The benchmark sums l_extendedprice * l_discount, and has l_discount in hundredths
-- as a decimal, which is 5 to 7 here.)
SELECT SUM(l_extendedprice) AS revenue
FROM lineitem
WHERE l_shipdate >= '1994-01-01' AND l_shipdate < '1995-01-01' AND l_discount >= 5 AND l_discount <= 7 AND l_quantity < 24
