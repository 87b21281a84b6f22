SELECT customer, COUNT(*) AS n FROM sales GROUP BY customer
