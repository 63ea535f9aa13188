CREATE TABLE a (id INT, k INT);
CREATE TABLE b (k INT);
CREATE TABLE out_t (id INT) WITH ('changelog' = 'retract');
INSERT INTO out_t SELECT id FROM a WHERE k NOT IN (SELECT k FROM b);
