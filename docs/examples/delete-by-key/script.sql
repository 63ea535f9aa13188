CREATE TABLE c (id INT PRIMARY KEY NOT ENFORCED, city STRING) WITH ('changelog' = 'upsert');
CREATE TABLE out_t (id INT, city STRING) WITH ('changelog' = 'retract');
INSERT INTO out_t SELECT id, city FROM c;
