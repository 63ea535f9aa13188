CREATE TABLE t (word STRING NOT NULL);
CREATE TABLE out_t (word STRING, n BIGINT) WITH ('changelog' = 'retract');
SET 'table.exec.mini-batch.enabled' = 'true';
INSERT INTO out_t SELECT word, COUNT(*) FROM t GROUP BY word;
