CREATE TABLE big (word STRING NOT NULL, v BIGINT NOT NULL);
CREATE TABLE out_t (word STRING, n BIGINT) WITH ('changelog' = 'retract');
INSERT INTO out_t SELECT word, SUM(v) FROM big GROUP BY word;
