CREATE TABLE customers (
    id INT PRIMARY KEY NOT ENFORCED,
    city STRING NOT NULL
) WITH ('changelog' = 'retract');
CREATE TABLE orders (
    id INT PRIMARY KEY NOT ENFORCED,
    customer INT NOT NULL,
    amount DECIMAL(10, 2) NOT NULL
) WITH ('changelog' = 'retract');
CREATE TABLE revenue (
    city STRING PRIMARY KEY NOT ENFORCED,
    orders BIGINT,
    total DECIMAL(38, 2)
) WITH ('changelog' = 'upsert');
INSERT INTO revenue
SELECT c.city, COUNT(*), SUM(o.amount)
FROM orders AS o JOIN customers AS c ON o.customer = c.id
GROUP BY c.city;
