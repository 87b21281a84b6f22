SELECT amount FROM sales ORDER BY day
