CREATE TABLE orders (id INT PRIMARY KEY NOT ENFORCED, city STRING, amount INT) WITH ('changelog' = 'retract');
CREATE TABLE best (city STRING, rn BIGINT, id INT) WITH ('changelog' = 'retract');
INSERT INTO best SELECT city, rn, id FROM (SELECT city, id, ROW_NUMBER() OVER (PARTITION BY city ORDER BY amount DESC) AS rn FROM orders) WHERE rn <= 3;
