CREATE TABLE orders (id INT PRIMARY KEY NOT ENFORCED, cust INT NOT NULL) WITH ('changelog' = 'retract');
CREATE TABLE customers (cid INT PRIMARY KEY NOT ENFORCED, city STRING);
CREATE TABLE out_t (id INT, city STRING) WITH ('changelog' = 'retract');
SET 'table.exec.resource.default-parallelism' = '2';
INSERT INTO out_t SELECT o.id, c.city FROM orders AS o JOIN customers AS c ON o.cust = c.cid;
