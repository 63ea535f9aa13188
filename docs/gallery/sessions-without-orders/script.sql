CREATE TABLE sessions (
    id INT PRIMARY KEY NOT ENFORCED,
    visitor STRING NOT NULL
);
CREATE TABLE orders (
    id INT PRIMARY KEY NOT ENFORCED,
    session INT
) WITH ('changelog' = 'retract');
CREATE TABLE lookers (
    id INT,
    visitor STRING
) WITH ('changelog' = 'retract');
INSERT INTO lookers
SELECT id, visitor FROM sessions AS s
WHERE NOT EXISTS (SELECT 1 FROM orders AS o WHERE o.session = s.id);
