CREATE TABLE orders (id INT, customer STRING, amount DECIMAL(10, 2), PRIMARY KEY (id) NOT ENFORCED)
WITH ('changelog' = 'retract');
CREATE TABLE totals (customer STRING, total DECIMAL(38, 2)) WITH ('changelog' = 'retract');
INSERT INTO totals SELECT customer, SUM(amount) FROM orders GROUP BY customer;
