CREATE TABLE t (g STRING NOT NULL, v BIGINT);
CREATE TABLE out_t (g STRING, least BIGINT, greatest BIGINT) WITH ('changelog' = 'retract');
INSERT INTO out_t SELECT g, MIN(v), MAX(v) FROM t GROUP BY g;
