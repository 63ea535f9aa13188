CREATE TABLE orders (
    id INT PRIMARY KEY NOT ENFORCED,
    region STRING NOT NULL,
    amount DECIMAL(10, 2)
) WITH ('changelog' = 'retract');
CREATE TABLE dashboard (
    region STRING PRIMARY KEY NOT ENFORCED,
    orders BIGINT,
    total DECIMAL(38, 2),
    largest DECIMAL(10, 2)
) WITH ('changelog' = 'upsert');
INSERT INTO dashboard
SELECT region, COUNT(*), SUM(amount), MAX(amount) FROM orders GROUP BY region;
