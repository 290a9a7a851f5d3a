-- The sums of each department at the moment :at, as a report of then has them: bytes, and byte-days from the vault's
-- beginning on. Left out, :at is now. A date alone is its midnight; all in UTC.
WITH
given(at) AS (SELECT :at || iif(:at GLOB '????-??-??', 'T00:00:00Z', '')),
-- What is neither a date nor a moment ends the query with an error; CROSS JOIN has SQLite look at it first.
asked(t) AS MATERIALIZED (
    SELECT CASE
        WHEN :at IS NULL THEN CAST(strftime('%s', 'now') AS INTEGER)
        WHEN at = strftime('%Y-%m-%dT%H:%M:%SZ', strftime('%s', at), 'unixepoch') THEN CAST(strftime('%s', at) AS INTEGER)
        ELSE json_extract(
            '{}',
            ':at is neither a date as 2025-06-10 nor a moment as 2025-06-10T12:00:00Z: ' || :at
                || iif(typeof(:at) = 'text', '', ', a number, as of a date that is not in two kinds of quotes')
        )
    END
    FROM given
),
-- each time that a department had a version, with its end: the next department's beginning, or the removal
spans AS (
    SELECT
        dept, size, n, moment AS since, removed,
        lead(moment) OVER (PARTITION BY entries.id ORDER BY n) AS moved
    FROM entries
    JOIN tenures ON tenures.id = entries.id
),
-- those that had begun at :at, and what had ended them by then
begun AS (
    SELECT
        dept, size, n, since,
        moved IS NOT NULL AND moved <= t AS is_handed,
        moved IS NULL AND removed IS NOT NULL AND removed <= t AS is_removed,
        min(t, coalesce(moved, removed, t)) AS ended
    FROM asked
    JOIN spans ON since <= t
)
SELECT
    name AS department,
    strftime('%Y-%m-%dT%H:%M:%SZ', asked.t, 'unixepoch') AS at,
    coalesce(sum(size) FILTER (WHERE n = 0), 0) AS admitted,
    coalesce(sum(size) FILTER (WHERE n > 0), 0) AS received,
    coalesce(sum(size) FILTER (WHERE NOT is_handed AND NOT is_removed), 0) AS held,
    coalesce(sum(size) FILTER (WHERE is_removed), 0) AS removed,
    coalesce(sum(size) FILTER (WHERE is_handed), 0) AS handed,
    coalesce(sum(size * (ended / 86400 - since / 86400)), 0) AS byte_days
FROM asked
CROSS JOIN departments
LEFT JOIN begun ON begun.dept = name
GROUP BY name
ORDER BY name;
