CREATE TABLE web (customer STRING, amount DECIMAL(8, 2));
CREATE TABLE shop (till INT, amount DECIMAL(8, 2));
CREATE TABLE sales (way STRING, buyer STRING, amount DECIMAL(8, 2));
INSERT INTO sales
SELECT 'web', customer, amount FROM web
UNION ALL
SELECT 'shop', 'till ' || CAST(till AS STRING), amount FROM shop WHERE amount > 0;
