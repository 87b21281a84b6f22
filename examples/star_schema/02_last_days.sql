-- What one store sold in the last days, one day after the other.
SELECT day_id, sale_id, amount FROM sales
WHERE day_id >= 1800 AND store_id = 17
ORDER BY day_id
