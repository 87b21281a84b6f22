-- What was sold on one day.
SELECT sale_id, amount FROM sales WHERE day_id = 1500
