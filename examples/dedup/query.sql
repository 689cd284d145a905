CREATE STREAM payments (ts TIMESTAMP, id BIGINT, cents BIGINT) FROM 'payments' WATERMARK FOR ts DELAY '5 minutes';
SELECT id, ts, cents FROM payments WHERE cents > 0 DEDUPLICATE BY id, ts OUTPUT APPEND;
