CREATE TABLE c (id INT PRIMARY KEY NOT ENFORCED, city STRING NOT NULL) WITH ('changelog' = 'retract');
CREATE TABLE by_city (city STRING PRIMARY KEY NOT ENFORCED, id INT) WITH ('changelog' = 'upsert');
INSERT INTO by_city SELECT city, id FROM c;
