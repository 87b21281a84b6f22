-- What was taken for the products of each category.
SELECT p.category, SUM(s.amount) AS taken
FROM sales s, products p
WHERE s.product_id = p.product_id
GROUP BY p.category
