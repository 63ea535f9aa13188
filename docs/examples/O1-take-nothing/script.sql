CREATE TABLE t (k INT, word STRING NOT NULL) WITH ('changelog' = 'retract');
CREATE TABLE out_t (word STRING, n BIGINT) WITH ('changelog' = 'retract');
INSERT INTO out_t SELECT word, COUNT(*) FROM t GROUP BY word;
