CREATE TABLE t (id INT PRIMARY KEY NOT ENFORCED, g STRING, v INT) WITH ('changelog' = 'retract');
CREATE TABLE out_t (rn BIGINT, id INT, v INT) WITH ('changelog' = 'retract');
INSERT INTO out_t SELECT rn, id, v
FROM (SELECT id, g, v, ROW_NUMBER() OVER (PARTITION BY g ORDER BY v DESC, id) AS rn FROM t) WHERE rn <= 2;
