CREATE TABLE t (word STRING NOT NULL) WITH ('changelog' = 'retract');
CREATE TABLE out_t (word STRING, n BIGINT, PRIMARY KEY (word) NOT ENFORCED) WITH ('changelog' = 'upsert');
INSERT INTO out_t SELECT word, COUNT(*) FROM t GROUP BY word;
