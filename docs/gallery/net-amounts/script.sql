CREATE TABLE invoices (
    id INT PRIMARY KEY NOT ENFORCED,
    customer STRING NOT NULL,
    amount DECIMAL(10, 2) NOT NULL,
    discount DECIMAL(10, 2),
    rate DECIMAL(3, 2) NOT NULL
);
CREATE TABLE nets (
    customer STRING,
    net DECIMAL(38, 2),
    tax DECIMAL(38, 4),
    mean DECIMAL(38, 6)
) WITH ('changelog' = 'retract');
INSERT INTO nets
SELECT customer,
    SUM(amount - COALESCE(discount, 0.00)),
    SUM((amount - COALESCE(discount, 0.00)) * rate),
    AVG(discount)
FROM invoices
GROUP BY customer;
