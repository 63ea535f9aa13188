CREATE TABLE budgets (
    team STRING PRIMARY KEY NOT ENFORCED,
    budget DECIMAL(10, 2) NOT NULL
);
CREATE TABLE expenses (
    id INT PRIMARY KEY NOT ENFORCED,
    team STRING,
    amount DECIMAL(10, 2) NOT NULL
);
CREATE TABLE report (
    team STRING,
    budget DECIMAL(10, 2),
    spent DECIMAL(38, 2),
    remains DECIMAL(38, 2)
) WITH ('changelog' = 'retract');
INSERT INTO report
SELECT COALESCE(b.team, s.team), b.budget, s.spent, b.budget - COALESCE(s.spent, 0.00)
FROM budgets AS b
FULL JOIN (SELECT team, SUM(amount) AS spent FROM expenses GROUP BY team) AS s ON b.team = s.team;
