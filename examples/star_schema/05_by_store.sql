-- What each store took, the best first.
SELECT store_id, SUM(amount) AS taken FROM sales GROUP BY store_id ORDER BY taken DESC
