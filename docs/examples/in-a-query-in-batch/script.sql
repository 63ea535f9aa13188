CREATE TABLE c (id INT, city STRING);
CREATE TABLE o (customer INT, amount BIGINT);
CREATE TABLE out_t (id INT, city STRING) WITH ('changelog' = 'retract');
INSERT INTO out_t SELECT id, city FROM c
WHERE id IN (SELECT customer FROM o GROUP BY customer HAVING SUM(amount) > 100);
