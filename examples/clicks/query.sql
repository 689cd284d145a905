CREATE STREAM impressions (ts TIMESTAMP, ad BIGINT, page STRING) FROM 'impressions' WATERMARK FOR ts DELAY '10 minutes';
CREATE STREAM clicks (ts TIMESTAMP, ad BIGINT, visitor STRING) FROM 'clicks' WATERMARK FOR ts DELAY '5 minutes';
SELECT impressions.ad AS ad, page, visitor, impressions.ts AS shown, clicks.ts AS clicked
  FROM impressions JOIN clicks ON impressions.ad = clicks.ad AND clicks.ts BETWEEN impressions.ts AND impressions.ts + INTERVAL '1 hour'
  OUTPUT APPEND;
