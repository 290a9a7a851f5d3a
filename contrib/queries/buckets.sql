-- What buckets there are: whose each is, its default retention, its rules in their order, and what it holds: versions
-- with their bytes, how many of them have a legal hold on, and delete markers.
WITH
held AS (
    SELECT bucket, marker, size, hold
    FROM entries
    LEFT JOIN settings ON settings.id = entries.id
        AND settings.n = (SELECT max(n) FROM settings AS any WHERE any.id = entries.id)
    WHERE removed IS NULL
),
sums AS (
    SELECT
        bucket,
        count(*) FILTER (WHERE NOT marker) AS versions,
        sum(size) AS bytes,
        count(*) FILTER (WHERE hold) AS holds,
        count(*) FILTER (WHERE marker) AS markers
    FROM held
    GROUP BY bucket
),
listed AS (
    SELECT bucket, group_concat(id || iif(enabled, '', ' (disabled)'), ', ') AS rules
    FROM (SELECT * FROM rules ORDER BY bucket, n)
    GROUP BY bucket
)
SELECT
    name AS bucket,
    dept AS department,
    CASE mode WHEN 0 THEN '-' WHEN 1 THEN 'GOVERNANCE ' ELSE 'COMPLIANCE ' END
        || coalesce(days || iif(days = 1, ' day', ' days'), years || iif(years = 1, ' year', ' years'), '') AS "default",
    coalesce(rules, '-') AS rules,
    coalesce(versions, 0) AS versions,
    coalesce(bytes, 0) AS bytes,
    coalesce(holds, 0) AS holds,
    coalesce(markers, 0) AS markers
FROM buckets
LEFT JOIN sums ON sums.bucket = name
LEFT JOIN listed ON listed.bucket = name
ORDER BY bucket;
