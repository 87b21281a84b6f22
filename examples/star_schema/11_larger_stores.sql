-- For each store how many are larger, the largest store first.
SELECT a.store_id, COUNT(*) AS larger
FROM stores a, stores b
WHERE a.area < b.area
GROUP BY a.store_id
ORDER BY larger
