CREATE TABLE o (id INT PRIMARY KEY NOT ENFORCED, customer INT NOT NULL) WITH ('changelog' = 'retract');
CREATE TABLE c (id INT PRIMARY KEY NOT ENFORCED, city STRING) WITH ('changelog' = 'retract');
CREATE TABLE cities (id INT PRIMARY KEY NOT ENFORCED, city STRING) WITH ('changelog' = 'upsert');
SET 'table.exec.sink.upsert-materialize' = 'NONE';
INSERT INTO cities SELECT o.id, c.city FROM o JOIN c ON o.customer = c.id;
