CREATE TABLE orders (id INT PRIMARY KEY NOT ENFORCED, customer INT) WITH ('changelog' = 'retract');
CREATE TABLE customers (id INT PRIMARY KEY NOT ENFORCED, city STRING) WITH ('changelog' = 'upsert');
CREATE TABLE out_t (id INT, city STRING) WITH ('changelog' = 'retract');
INSERT INTO out_t SELECT o.id, c.city FROM orders AS o LEFT JOIN customers AS c ON o.customer = c.id;
