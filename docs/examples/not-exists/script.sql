CREATE TABLE c (id INT, city STRING) WITH ('changelog' = 'retract');
CREATE TABLE o (customer INT, amount BIGINT) WITH ('changelog' = 'retract');
CREATE TABLE out_t (id INT, city STRING) WITH ('changelog' = 'retract');
INSERT INTO out_t SELECT id, city FROM c
WHERE NOT EXISTS (SELECT 1 FROM o WHERE o.customer = c.id AND amount > 100);
