CREATE TABLE t (k INT, word STRING NOT NULL) WITH ('changelog' = 'retract');
CREATE TABLE out_t (word STRING, n BIGINT) WITH ('changelog' = 'retract');
CREATE TABLE log (id INT PRIMARY KEY NOT ENFORCED, word STRING);
INSERT INTO out_t SELECT word, COUNT(*) FROM log GROUP BY word;
