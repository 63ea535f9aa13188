CREATE TABLE t (word STRING);
CREATE TABLE out_t (word STRING) WITH ('changelog' = 'retract');
INSERT INTO out_t SELECT word FROM t;
