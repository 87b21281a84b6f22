-- What hotels spent in one year, by category and region, the most first.
SELECT p.category, st.region, SUM(s.amount) AS taken, COUNT(*) AS sold
FROM sales s, customers c, products p, stores st, days d
WHERE s.customer_id = c.customer_id AND s.product_id = p.product_id
  AND s.store_id = st.store_id AND s.day_id = d.day_id
  AND c.trade = 'hotel' AND d.year = 2024
GROUP BY p.category, st.region
ORDER BY taken DESC
