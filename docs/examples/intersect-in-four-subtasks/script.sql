CREATE TABLE a (k INT, d DECIMAL(5, 2));
CREATE TABLE b (k BIGINT, d DECIMAL(9, 2));
CREATE TABLE out_t (k BIGINT, d DECIMAL(9, 2)) WITH ('changelog' = 'retract');
SET 'table.exec.resource.default-parallelism' = '4';
INSERT INTO out_t SELECT k, d FROM a INTERSECT SELECT k, d FROM b;
