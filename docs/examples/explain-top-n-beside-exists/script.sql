CREATE TABLE a (id INT PRIMARY KEY NOT ENFORCED, v INT) WITH ('changelog' = 'retract');
CREATE TABLE b (k INT, rn INT);
CREATE TABLE out_t (id INT, v INT) WITH ('changelog' = 'retract');
INSERT INTO out_t SELECT id, v FROM (SELECT id, v, ROW_NUMBER() OVER (ORDER BY v DESC, id) AS rn FROM a)
WHERE rn <= 2 AND EXISTS (SELECT 1 FROM b WHERE k = id AND rn > 1);
