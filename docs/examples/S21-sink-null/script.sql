CREATE TABLE t (k INT, word STRING NOT NULL) WITH ('changelog' = 'retract');
CREATE TABLE least (k INT NOT NULL) WITH ('changelog' = 'retract');
INSERT INTO least SELECT MIN(k) FROM t;
