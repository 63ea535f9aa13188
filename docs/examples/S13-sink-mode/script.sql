CREATE TABLE t (k INT, word STRING NOT NULL) WITH ('changelog' = 'retract');
CREATE TABLE out_t (word STRING, n BIGINT) WITH ('changelog' = 'retract');
CREATE TABLE log (word STRING, k INT);
INSERT INTO log SELECT word, k FROM t;
