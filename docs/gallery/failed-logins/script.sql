CREATE TABLE attempts (
    account STRING NOT NULL,
    succeeded BOOLEAN NOT NULL
) WITH ('changelog' = 'retract');
CREATE TABLE alerts (
    account STRING,
    failed BIGINT
) WITH ('changelog' = 'retract');
INSERT INTO alerts
SELECT account, COUNT(*) FROM attempts
WHERE NOT succeeded
GROUP BY account HAVING COUNT(*) >= 3;
