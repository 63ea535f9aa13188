CREATE TABLE a (k INT);
CREATE TABLE b (k INT);
CREATE TABLE out_t (xk INT, xn BIGINT, yk INT, yn BIGINT) WITH ('changelog' = 'retract');
INSERT INTO out_t SELECT x.k, x.n, y.k, y.n
FROM (SELECT k, COUNT(*) AS n FROM a GROUP BY k) AS x
FULL JOIN (SELECT k, COUNT(*) AS n FROM b GROUP BY k) AS y ON x.k = y.k;
