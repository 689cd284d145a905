CREATE STREAM games (player STRING, points BIGINT) FROM 'games';
SELECT player, SUM(points) AS total, MAX(points) AS best FROM games GROUP BY player HAVING COUNT(*) > 1 ORDER BY total DESC, best DESC OUTPUT COMPLETE;
