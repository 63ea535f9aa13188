CREATE TABLE a (id INT PRIMARY KEY NOT ENFORCED, k INT);
CREATE TABLE b (k INT PRIMARY KEY NOT ENFORCED, x STRING) WITH ('changelog' = 'retract');
CREATE TABLE out_t (id INT, x STRING) WITH ('changelog' = 'retract');
INSERT INTO out_t SELECT a.id, b.x FROM a LEFT JOIN b ON a.k = b.k;
