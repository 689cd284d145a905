CREATE STREAM visits (ts TIMESTAMP, page STRING) FROM 'visits' WATERMARK FOR ts DELAY '5 minutes';
SELECT window_start, window_end, page, COUNT(*) AS n FROM visits GROUP BY WINDOW(ts, '10 minutes'), page OUTPUT APPEND;
