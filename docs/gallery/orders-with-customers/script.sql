CREATE TABLE customers (
    id INT PRIMARY KEY NOT ENFORCED,
    name STRING NOT NULL,
    city STRING
) WITH ('changelog' = 'upsert');
CREATE TABLE orders (
    id INT PRIMARY KEY NOT ENFORCED,
    customer INT,
    amount DECIMAL(10, 2)
);
CREATE TABLE enriched (
    id INT,
    name STRING,
    city STRING,
    amount DECIMAL(10, 2)
) WITH ('changelog' = 'retract');
INSERT INTO enriched
SELECT o.id, c.name, c.city, o.amount
FROM orders AS o LEFT JOIN customers AS c ON o.customer = c.id;
