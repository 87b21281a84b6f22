-- How many sales there are.
SELECT COUNT(*) AS sold FROM sales
