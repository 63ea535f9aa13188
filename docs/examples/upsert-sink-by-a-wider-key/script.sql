CREATE TABLE c (id INT PRIMARY KEY NOT ENFORCED, city STRING NOT NULL) WITH ('changelog' = 'retract');
CREATE TABLE out_t (id INT, city STRING, PRIMARY KEY (id, city) NOT ENFORCED) WITH ('changelog' = 'upsert');
INSERT INTO out_t SELECT id, city FROM c WHERE city <> 'Lima';
