CREATE TABLE sales (
    city STRING NOT NULL,
    product STRING NOT NULL,
    quantity INT NOT NULL
);
CREATE TABLE leaders (
    city STRING,
    place BIGINT,
    product STRING,
    sold INT
) WITH ('changelog' = 'retract');
INSERT INTO leaders
SELECT city, place, product, sold
FROM (
    SELECT city, product, sold,
        ROW_NUMBER() OVER (PARTITION BY city ORDER BY sold DESC, product) AS place
    FROM (SELECT city, product, SUM(quantity) AS sold FROM sales GROUP BY city, product)
)
WHERE place <= 3;
