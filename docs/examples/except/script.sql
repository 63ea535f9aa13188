CREATE TABLE a (k INT);
CREATE TABLE b (k INT);
CREATE TABLE out_t (k INT) WITH ('changelog' = 'retract');
INSERT INTO out_t SELECT k FROM a EXCEPT SELECT k FROM b;
