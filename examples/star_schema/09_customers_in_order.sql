-- What each customer spent, with the name, in the order of their numbers.
SELECT s.customer_id, MIN(c.name) AS name, SUM(s.amount) AS spent
FROM sales s, customers c
WHERE s.customer_id = c.customer_id
GROUP BY s.customer_id
ORDER BY s.customer_id
