CREATE TABLE visits (
    page STRING NOT NULL,
    visitor STRING,
    seconds INT
);
CREATE TABLE pages (
    page STRING,
    visits BIGINT,
    visitors BIGINT,
    stayed BIGINT
) WITH ('changelog' = 'retract');
INSERT INTO pages
SELECT page, COUNT(*), COUNT(DISTINCT visitor), COUNT(*) FILTER (WHERE seconds >= 30)
FROM visits
GROUP BY page;
