-- What was taken for each brand on one day.
SELECT p.brand, SUM(s.amount) AS taken
FROM sales s, products p
WHERE s.product_id = p.product_id AND s.day_id = 1500
GROUP BY p.brand
