SELECT day, COUNT(*) AS n FROM sales GROUP BY day ORDER BY day
