CREATE TABLE a (id INT PRIMARY KEY NOT ENFORCED, v INT) WITH ('changelog' = 'retract');
CREATE TABLE b (rn INT);
CREATE TABLE out_t (id INT PRIMARY KEY NOT ENFORCED, v INT) WITH ('changelog' = 'upsert');
SET 'table.exec.sink.upsert-materialize' = 'NONE';
INSERT INTO out_t SELECT id, v FROM (SELECT id, v, ROW_NUMBER() OVER (ORDER BY v DESC, id) AS rn FROM a)
WHERE rn <= 2 AND 3 IN (SELECT rn FROM b);
