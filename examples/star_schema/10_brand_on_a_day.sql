-- What each customer spent on one brand on one day, in the order of their numbers.
SELECT s.customer_id, SUM(s.amount) AS spent
FROM sales s, products p
WHERE s.product_id = p.product_id AND p.brand = 'Alba' AND s.day_id = 1500
GROUP BY s.customer_id
ORDER BY s.customer_id
