CREATE TABLE t (word STRING NOT NULL);
CREATE TABLE counts (word STRING PRIMARY KEY NOT ENFORCED, n BIGINT) WITH ('changelog' = 'upsert');
SET 'table.exec.mini-batch.enabled' = 'true';
SET 'table.optimizer.agg-phase-strategy' = 'TWO_PHASE';
INSERT INTO counts SELECT word, COUNT(*) FROM t GROUP BY word;
