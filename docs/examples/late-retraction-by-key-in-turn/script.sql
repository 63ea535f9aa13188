CREATE TABLE orders (id INT PRIMARY KEY NOT ENFORCED, cust INT NOT NULL) WITH ('changelog' = 'retract');
CREATE TABLE customers (cid INT PRIMARY KEY NOT ENFORCED, city STRING);
CREATE TABLE last_city (id INT PRIMARY KEY NOT ENFORCED, city STRING) WITH ('changelog' = 'upsert');
SET 'table.exec.resource.default-parallelism' = '2';
INSERT INTO last_city SELECT o.id, c.city FROM orders AS o JOIN customers AS c ON o.cust = c.cid;
