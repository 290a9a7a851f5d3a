-- What was held at the moment :at, and until when: each version with its department, its retention and its legal hold of
-- then. Left out, :at is now. A date alone is its midnight; all in UTC.
--   retention: its mode while it is in force, `ended` where its end has passed
WITH
given(at) AS (SELECT :at || iif(:at GLOB '????-??-??', 'T00:00:00Z', '')),
-- What is neither a date nor a moment ends the query with an error; CROSS JOIN has SQLite look at it first.
asked(t) AS MATERIALIZED (
    SELECT CASE
        WHEN :at IS NULL THEN CAST(strftime('%s', 'now') AS INTEGER)
        WHEN at = strftime('%Y-%m-%dT%H:%M:%SZ', strftime('%s', at), 'unixepoch') THEN CAST(strftime('%s', at) AS INTEGER)
        ELSE json_extract(
            '{}',
            ':at is neither a date as 2025-06-10 nor a moment as 2025-06-10T12:00:00Z: ' || :at
                || iif(typeof(:at) = 'text', '', ', a number, as of a date that is not in two kinds of quotes')
        )
    END
    FROM given
)
SELECT
    dept AS department,
    bucket,
    key,
    entries.id AS version,
    size,
    CASE
        WHEN mode = 0 THEN '-'
        WHEN until > t THEN iif(mode = 1, 'GOVERNANCE', 'COMPLIANCE')
        ELSE 'ended'
    END AS retention,
    coalesce(strftime('%Y-%m-%dT%H:%M:%SZ', until, 'unixepoch'), '-') AS until,
    iif(hold, 'ON', 'OFF') AS hold
FROM asked
CROSS JOIN entries ON admitted <= t AND (removed IS NULL OR removed > t)
JOIN settings ON settings.id = entries.id
    AND settings.n = (SELECT max(n) FROM settings AS any WHERE any.id = entries.id AND any.moment <= t)
JOIN tenures ON tenures.id = entries.id
    AND tenures.n = (SELECT max(n) FROM tenures AS any WHERE any.id = entries.id AND any.moment <= t)
ORDER BY bucket, key, version DESC;
