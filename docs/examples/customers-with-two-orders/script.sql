CREATE TABLE orders (id INT PRIMARY KEY NOT ENFORCED, customer STRING NOT NULL, amount DECIMAL(10, 2)) WITH ('connector' = 'x', 'changelog' = 'retract');
CREATE TABLE totals (customer STRING, total DECIMAL(38, 2), large BIGINT) WITH ('changelog' = 'retract');
INSERT INTO totals
SELECT customer, SUM(amount) AS total, COUNT(*) FILTER (WHERE amount > 100) AS large
FROM orders WHERE amount IS NOT NULL
GROUP BY customer HAVING COUNT(*) > 1;
