CREATE TABLE t (v INT) WITH ('changelog' = 'retract');
CREATE TABLE out_t (n BIGINT, low INT, mean INT) WITH ('changelog' = 'retract');
INSERT INTO out_t SELECT COUNT(*), MIN(v), AVG(v) FROM t;
