-- What each customer spent.
SELECT customer_id, SUM(amount) AS spent FROM sales GROUP BY customer_id
