SELECT region, SUM(amount) AS total FROM sales, customers WHERE sales.customer = customers.id GROUP BY region ORDER BY total DESC
