CREATE TABLE readings (
    sensor STRING NOT NULL,
    seq BIGINT NOT NULL,
    degrees DECIMAL(5, 1),
    PRIMARY KEY (sensor, seq) NOT ENFORCED
);
CREATE TABLE latest (
    sensor STRING PRIMARY KEY NOT ENFORCED,
    seq BIGINT,
    degrees DECIMAL(5, 1)
) WITH ('changelog' = 'upsert');
INSERT INTO latest
SELECT sensor, seq, degrees
FROM (
    SELECT sensor, seq, degrees,
        ROW_NUMBER() OVER (PARTITION BY sensor ORDER BY seq DESC) AS place
    FROM readings
)
WHERE place = 1;
