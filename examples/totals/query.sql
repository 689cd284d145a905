CREATE STREAM sales (shop STRING, cents BIGINT) FROM 'sales';
SELECT shop, COUNT(*) AS n, SUM(cents) AS total FROM sales WHERE cents <> 0 GROUP BY shop OUTPUT UPDATE;
