CREATE TABLE orders (
    id INT PRIMARY KEY NOT ENFORCED,
    status STRING NOT NULL
) WITH ('changelog' = 'upsert');
CREATE TABLE board (
    status STRING PRIMARY KEY NOT ENFORCED,
    n BIGINT
) WITH ('changelog' = 'upsert');
INSERT INTO board SELECT status, COUNT(*) FROM orders GROUP BY status;
