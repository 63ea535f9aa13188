CREATE TABLE a (x INT) WITH ('changelog' = 'retract');
CREATE TABLE b (y BIGINT);
CREATE TABLE out_t (z BIGINT) WITH ('changelog' = 'retract');
INSERT INTO out_t SELECT DISTINCT z FROM (SELECT x AS z FROM a UNION ALL SELECT y FROM b);
