CREATE STREAM orders (ts TIMESTAMP, id BIGINT, cents BIGINT) FROM 'orders' WATERMARK FOR ts DELAY '5 minutes';
CREATE STREAM payments (ts TIMESTAMP, id BIGINT) FROM 'payments' WATERMARK FOR ts DELAY '5 minutes';
SELECT orders.id AS id, cents, payments.ts AS paid
  FROM orders LEFT JOIN payments ON orders.id = payments.id AND payments.ts BETWEEN orders.ts AND orders.ts + INTERVAL '30 minutes'
  WHERE payments.ts IS NULL
  OUTPUT APPEND;
