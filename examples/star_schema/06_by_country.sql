-- What the customers of each country spent.
SELECT c.country, SUM(s.amount) AS spent
FROM sales s, customers c
WHERE s.customer_id = c.customer_id
GROUP BY c.country
